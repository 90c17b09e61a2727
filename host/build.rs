mod archive;

fn main() {
    let host = std::path::Path::new(env!("CARGO_MANIFEST_DIR"));
    archive::link(host.parent().expect("host/ stands in the repository"), "gateway");
}
