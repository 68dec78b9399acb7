"""Makes sources in C, C++ and Rust whose program has about so many megabytes of .debug_info."""

C = """typedef unsigned char byte;
typedef unsigned long size;
struct list { struct list *next, *previous; };
"""

CPP = """#include <functional>
#include <map>
#include <memory>
#include <string>
#include <tuple>
#include <unordered_map>
#include <variant>
#include <vector>
"""

RUST = """use std::collections::{BTreeMap, HashMap};
use std::rc::Rc;
"""


def c_block(name, k):
    """A structure with nested parts, an enumeration, a union, typedefs and three functions."""
    return f"""
enum state_{name} {{ {name}_IDLE, {name}_BUSY = {k + 3}, {name}_DONE = -{k + 1} }};
typedef int (*handler_{name})(struct list *, const char *, size);
union value_{name} {{ int whole; double real; byte raw[{k % 13 + 3}]; }};
struct part_{name} {{
    struct list links;
    enum state_{name} state;
    unsigned ready : 1, level : 5;
    union value_{name} values[{k % 7 + 2}][3];
    struct {{ short low, high; }};
    handler_{name} on_event;
}};
typedef struct part_{name} part_{name};
static part_{name} all_{name}[{k % 5 + 1}];
static int find_{name}(const part_{name} *parts, size count, int wanted)
{{
    for (size i = 0; i < count; i++) {{
        const union value_{name} *value = &parts[i].values[0][1];
        if (value->whole == wanted)
            return (int)i;
    }}
    return -1;
}}
int event_{name}(struct list *list, const char *text, size length)
{{
    part_{name} *part = (part_{name} *)list;
    byte sum = 0;
    for (size i = 0; i < length; i++)
        sum += (byte)text[i];
    part->low = sum;
    part->state = {name}_BUSY;
    return find_{name}(part, 1, sum);
}}
int run_{name}(int argc)
{{
    all_{name}[0].on_event = event_{name};
    return all_{name}[0].on_event(&all_{name}[0].links, "text", (size)argc);
}}
"""


def cpp_block(name, k):
    """A function whose containers, tuples, variants and pointers hold types of its own."""
    return f"""
namespace {name} {{
struct key {{ int low, high; bool operator<(const key &other) const {{ return low < other.low; }} }};
template <typename T, int N> struct box {{ T values[N]; std::tuple<T, key, std::string> last; }};
using row = std::tuple<key, std::string, std::unique_ptr<box<key, {k + 1}>>>;
using choice = std::variant<int, key, std::string>;
static int run(int n)
{{
    std::map<key, std::vector<row>> rows;
    std::unordered_map<std::string, std::shared_ptr<box<double, {k + 2}>>> boxes;
    std::function<choice(int)> choose = [](int x) {{ return x > 1 ? choice(key()) : choice("text"); }};
    rows[key()].emplace_back(key(), "a", nullptr);
    boxes["b"] = std::make_shared<box<double, {k + 2}>>();
    return rows.size() + boxes.size() + choose(n).index();
}}
}}
int run_{name}(int n) {{ return {name}::run(n); }}
"""


def rust_block(name, k):
    """A module whose maps and vectors hold enumerations and generic structures of its own."""
    return f"""
mod {name} {{
    use super::*;
    #[derive(Clone, Debug, PartialEq, Eq, Hash, PartialOrd, Ord)]
    pub enum Key {{ Low(u8), High {{ word: u64, text: String }}, Both([u16; {k % 7 + 1}], Option<Box<Key>>) }}
    #[derive(Clone, Debug)]
    pub struct Row<T> {{ keys: Vec<Key>, rest: Option<Rc<T>>, last: (T, [Key; {k % 3 + 1}]) }}
    pub fn run(n: u8) -> usize {{
        let mut rows: BTreeMap<Key, Vec<Row<Key>>> = BTreeMap::new();
        let mut names: HashMap<Key, Result<String, Key>> = HashMap::new();
        rows.entry(Key::Low(n)).or_default().extend((0..n).map(|m| Row {{
            keys: vec![Key::Low(m)], rest: None, last: (Key::Low(n), std::array::from_fn(|_| Key::Low(m))),
        }}));
        names.insert(Key::High {{ word: 1, text: format!("{{rows:?}}") }}, Err(Key::Both([1; {k % 7 + 1}], None)));
        rows.values().map(|row| row.len()).sum::<usize>() + names.len()
    }}
}}
"""


# By language: what writes a block and what stands above the blocks of a source; the bytes that a block adds to
# .debug_info, as gcc 12 and rustc 1.95 write version 5; how many blocks a source has.
LANGUAGES = {"c": (c_block, C, 660, 120), "cpp": (cpp_block, CPP, 92_000, 10), "rs": (rust_block, RUST, 136_000, None)}


def sources(language, megabytes):
    """The text of each source, by its file name."""
    block, head, size, limit = LANGUAGES[language]
    blocks = int(megabytes * 1_000_000 / size)
    if language == "rs":
        names = [f"u0_{k}" for k in range(blocks)]
        calls = "".join(f"    sum += {name}::run(n);\n" for name in names)
        body = f"    let n = std::env::args().count() as u8;\n    let mut sum = 0;\n{calls}    println!(\"{{sum}}\");\n"
        modules = "".join(block(name, k) for k, name in enumerate(names))
        return {"main.rs": f"{head}{modules}\nfn main() {{\n{body}}}\n"}
    made, units = {}, range((blocks + limit - 1) // limit)
    for unit in units:
        names = [f"u{unit}_{k}" for k in range(min(limit, blocks - unit * limit))]
        calls = "".join(f"    sum += run_{name}(n);\n" for name in names)
        made[f"unit_{unit}.{language}"] = (
            head + "".join(block(name, k) for k, name in enumerate(names))
            + f"int unit_{unit}(int n)\n{{\n    int sum = 0;\n{calls}    return sum;\n}}\n")
    declared = "".join(f"int unit_{unit}(int n);\n" for unit in units)
    calls = "".join(f"    sum += unit_{unit}(argc);\n" for unit in units)
    body = f"    int sum = 0;\n{calls}    return sum & 0;\n"
    made[f"main.{language}"] = f"{declared}int main(int argc, char **argv)\n{{\n{body}}}\n"
    return made
