// Links the static library whose folder the environment names.
fn main() {
    let folder = std::env::var("BENCH_FIXTURE_LIB").expect("BENCH_FIXTURE_LIB names the folder of libbench_fixture.a; use bench/run");
    println!("cargo:rustc-link-search=native={folder}");
    println!("cargo:rustc-link-lib=static=bench_fixture");
    println!("cargo:rerun-if-env-changed=BENCH_FIXTURE_LIB");
    println!("cargo:rerun-if-changed={folder}/libbench_fixture.a");
}
