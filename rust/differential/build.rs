//! Makes a copy of the peer for each deliberate fault, as modules of the test.
use std::fmt::Write;
use std::path::{Path, PathBuf};
use std::{env, fs};

include!("faults.rs");

fn main() {
    let peer = Path::new(env!("CARGO_MANIFEST_DIR")).join("../peer/src");
    let out = PathBuf::from(env::var_os("OUT_DIR").expect("cargo names a folder"));
    println!("cargo:rerun-if-changed=faults.rs");
    println!("cargo:rerun-if-changed={}", peer.display());
    let mut modules = String::new();
    for fault in &FAULTS {
        let folder = out.join(fault.name);
        fs::create_dir_all(&folder).expect("a folder for the copy");
        for file in ["lib.rs", "calendar.rs", "notification.rs", "object.rs", "register.rs"] {
            let mut text = fs::read_to_string(peer.join(file)).expect("the peer's source");
            if file == fault.file {
                let times = text.matches(fault.old).count();
                assert!(times == 1, "{}: its text stands {times} times in {file}", fault.name);
                text = text.replace(fault.old, fault.new);
            }
            let text = text.replace("crate::", &format!("crate::faulty::{}::", fault.name));
            fs::write(folder.join(file), text.replace("pub mod script;\n", "")).expect("the copy is written");
        }
        let start = folder.join("lib.rs");
        writeln!(modules, "#[path = {start:?}]\npub mod {};", fault.name).expect("a text");
    }
    fs::write(out.join("faulty.rs"), modules).expect("the list of copies is written");
}
