//! Links the archive that `tools/staticlib jws_ffi` writes, or one in the folder that `JWS_ARCHIVE_DIR` names (an absolute path), where it may
//! have the name that `make install` gives it. Where `JWS_BEFORE` names an earlier archive (an absolute path), that is linked too, in the
//! same way, and `jws_before` is set: `benches/tokens.rs` times it.

#[path = "../tools/archive.rs"]
mod archive;

fn main() {
    let archive = archive::archive("jws_ffi", &["libjws_ffi.a", "libjws.a"], "JWS_ARCHIVE_DIR");
    archive::link(&archive, "jws_ffi");
    archive::link_before("jws", &["boundary", "member", "payload", "sign", "verify"]);
    // For the tests, which compile C programs over it.
    println!("cargo:rustc-env=JWS_ARCHIVE={}", archive.display());
}
