//! The text of the crate stands as it came.

#[path = "helpers/files.rs"]
mod files;
#[path = "../../splitter/build/sha256.rs"]
mod sha256;

use files::files_under;
use std::{fs, path::Path};

const TEXT: [(&str, &str); 6] = [
    (
        "LICENSE-APACHE",
        "eba684204073ed715c4abb48129acdfd2bff8ae48339e6a7da3b341d3027b7f0",
    ),
    (
        "LICENSE-MIT",
        "7b4c9a3946dfcea7967582760e963e27799e225dcf20565c8ef55324bb017427",
    ),
    (
        "graph/coverage_graph.rs",
        "db0b4a9998c495e5a3b30a5f4f4af97012613964538b4e975171f1dc234ad4e3",
    ),
    (
        "graph/markbasepos_graph.rs",
        "fce88b2cdb629d887ee5c7f51d8b8ad4a9fe65b179ee4601f1395631ce61c0f8",
    ),
    (
        "graph/pairpos_graph.rs",
        "9ca6753d3657eabcee73ea70daa2afc68fdc833cdd8680fc9feb6804b77856c9",
    ),
    (
        "lib.rs",
        "bb3c9b1a491a6a7ac4b4fcc05d864d5a249a80c10f66c2ada41f77b054188a01",
    ),
];

#[test]
fn docs_src_holds_these_files_and_no_other() {
    let root = Path::new(env!("CARGO_MANIFEST_DIR")).join("../../docs/src");
    let files = files_under(&root).unwrap();
    let found: Vec<_> = files
        .iter()
        .map(|file| {
            let name = file.strip_prefix(&root).unwrap().to_str().unwrap();
            (name, sha256::hex_digest(&fs::read(file).unwrap()))
        })
        .collect();
    assert_eq!(found, TEXT.map(|(name, digest)| (name, digest.to_string())));
}
