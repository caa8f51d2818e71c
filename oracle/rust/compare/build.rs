//! Links our library, whose machine code stands at ULB_OBJECT, and makes its calls over slices from its header: a slice
//! goes to C as a pointer and then its length.
use std::{env, fs, path::Path};

fn without_comments(text: &str) -> String {
    text.split("/*").map(|part| part.split_once("*/").map_or(part, |(_, rest)| rest)).collect()
}

/// One declaration of the header as a declaration and a function of Rust.
fn call(name: &str, arguments: &str) -> (String, String) {
    let (mut raw, mut safe, mut pass) = (vec![], vec![], vec![]);
    for argument in arguments.split(',') {
        let (kind, name) = argument.trim().rsplit_once(' ').expect("a type and a name");
        let width = kind.trim_start_matches("const ").trim_start_matches("uint").trim_end_matches("_t");
        match (name.strip_prefix('*'), kind) {
            (Some(name), "uint8_t") => {
                raw.push(format!("{name}: *mut u8"));
                safe.push(format!("{name}: &mut [u8]"));
                pass.push(format!("{name}.as_mut_ptr(), {name}.len()"));
            }
            (Some(name), _) => {
                raw.push(format!("{name}: *const u8"));
                safe.push(format!("{name}: &[u8]"));
                pass.push(format!("{name}.as_ptr(), {name}.len()"));
            }
            (None, "size_t") => raw.push(format!("{name}: usize")),
            (None, _) => {
                raw.push(format!("{name}: u{width}"));
                safe.push(format!("{name}: u{width}"));
                pass.push(name.to_string());
            }
        }
    }
    let (raw, safe, pass) = (raw.join(", "), safe.join(", "), pass.join(", "));
    (
        format!("pub fn ulb_{name}({raw}) -> u8;\n"),
        format!("#[inline(always)]\npub fn {name}({safe}) -> u8 {{ unsafe {{ raw::ulb_{name}({pass}) }} }}\n"),
    )
}

fn main() {
    let object = env::var("ULB_OBJECT").expect("ULB_OBJECT: the object or archive of our library");
    println!("cargo:rerun-if-env-changed=ULB_OBJECT");
    println!("cargo:rerun-if-changed={object}");
    println!("cargo:rustc-link-arg={object}");
    // another order of the functions in the program, for bench/run
    println!("cargo:rerun-if-env-changed=ULB_LAYOUT");
    if let Some(seed) = env::var("ULB_LAYOUT").ok().filter(|seed| !seed.is_empty()) {
        println!("cargo:rustc-link-arg=-Wl,--shuffle-sections=.text*={seed}");
    }

    // a library from before ulb_start_colour: its own start, which is white, takes that call and looks at no colour
    println!("cargo:rerun-if-env-changed=ULB_WHITE_START");
    if env::var("ULB_WHITE_START").is_ok_and(|set| !set.is_empty()) {
        println!("cargo:rustc-link-arg=-Wl,--undefined=ulb_start,--defsym=ulb_start_colour=ulb_start");
    }

    let header = "../include/ulb.h";
    println!("cargo:rerun-if-changed={header}");
    let text = without_comments(&fs::read_to_string(header).expect("the header"));
    let (mut raw, mut safe) = (String::new(), String::new());
    for declaration in text.split("uint8_t ulb_").skip(1) {
        let (name, rest) = declaration.split_once('(').expect("a name");
        let (arguments, _) = rest.split_once(')').expect("an end");
        let (declared, function) = call(name, arguments);
        raw += &declared;
        safe += &function;
    }
    let out = Path::new(&env::var("OUT_DIR").unwrap()).join("surface.rs");
    fs::write(out, format!("mod raw {{ extern \"C\" {{\n{raw}}} }}\n{safe}")).expect("the surface");
}
