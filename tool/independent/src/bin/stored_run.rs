//! Writes the stored runs of the programs `dta_ask` and `dta_rounds`.

use std::path::Path;

fn write(program: &str, (sent, due): (Vec<u8>, Vec<u8>)) -> std::io::Result<()> {
    let folder = Path::new(env!("CARGO_MANIFEST_DIR"))
        .join("../../crates")
        .join(program);
    std::fs::write(folder.join("stdin"), sent)?;
    std::fs::write(folder.join("stdout"), due)
}

fn main() -> std::io::Result<()> {
    write("dta_ask", independent::record::stored())?;
    let (sent, due) = independent::rounds::stored();
    write("dta_rounds", (sent, due.into_bytes()))
}
