// The compiler's version, to be printed beside the sizes it gives.
fn main() {
    let rustc = std::env::var("RUSTC").expect("cargo sets RUSTC");
    let output = std::process::Command::new(rustc).arg("--version").output().expect("rustc runs");
    let text = String::from_utf8(output.stdout).expect("rustc prints text");
    println!("cargo:rustc-env=RUSTC_VERSION={}", text.split_whitespace().nth(1).unwrap_or("unknown"));
}
