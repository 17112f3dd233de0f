//! Links the archive that `tools/staticlib codec_ffi` writes, or the one in the folder that `CODEC_ARCHIVE_DIR` names (an absolute path). Where
//! `CODEC_BEFORE` names an earlier archive (an absolute path), that is linked too, in the same way, and `codec_before` is set.

#[path = "../tools/archive.rs"]
mod archive;

fn main() {
    let archive = archive::archive("codec_ffi", &["libcodec_ffi.a"], "CODEC_ARCHIVE_DIR");
    archive::link(&archive, "codec_ffi");
    archive::link_before("codec", &["decode", "encode", "hmac", "sha256"]);
}
