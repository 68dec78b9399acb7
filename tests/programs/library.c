/* A shared library with data of its own, and a type that only it knows. */
struct handle;

struct handle {
    int users;
    void (*close)(struct handle *);
    struct handle *next;
};

static struct handle first;

static void done(struct handle *handle)
{
    handle->users = 0;
}

struct handle *library_open(const char *name)
{
    first.users += name != 0;
    first.close = done;
    return &first;
}

__thread int library_errors;
