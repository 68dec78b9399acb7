// Links libdwv.a from the folder in DWV_LIB_DIR, or from the one that pkg-config names.
use std::{env, path::Path, process::Command};

/// The folder that pkg-config names, or why there is none.
fn installed() -> Result<String, String> {
    let output = Command::new("pkg-config").args(["--variable=libdir", "dwv"]).output();
    match output {
        Err(error) => Err(format!("pkg-config does not run ({error})")),
        Ok(output) if !output.status.success() => Err("pkg-config does not find dwv".to_owned()),
        Ok(output) => Ok(String::from_utf8_lossy(&output.stdout).trim().to_owned()),
    }
}

fn main() {
    println!("cargo:rerun-if-env-changed=DWV_LIB_DIR");
    if env::var_os("DOCS_RS").is_some() {
        return;
    }
    let found = env::var("DWV_LIB_DIR").or_else(|_| installed());
    let found = found.and_then(|folder| match Path::new(&folder).join("libdwv.a").exists() {
        true => Ok(folder),
        false => Err(format!("there is no libdwv.a in {folder}")),
    });
    match found {
        Err(why) => {
            eprintln!("error: {why}. Build the library of dwv by `make lib` and install it by `make install`,");
            eprintln!("or set DWV_LIB_DIR to the folder that has libdwv.a.");
            std::process::exit(1);
        }
        Ok(folder) => {
            println!("cargo:rerun-if-changed={folder}/libdwv.a");
            println!("cargo:rustc-link-search=native={folder}");
            println!("cargo:rustc-link-lib=static=dwv");
        }
    }
}
