//! The boundary between these commands and the archive that they are linked with.

use crate::answer::Failure;

/// Fails where the linked archive has another boundary than the one that the wrapper was written for: what it answers could mean something
/// else.
pub fn same(command: &str, written_for: u32, linked: u32) -> Result<(), Failure> {
    if written_for == linked {
        return Ok(());
    }
    Err(Failure::Other(format!(
        "{command}: this was written for boundary {written_for} of the proved library, and the one that is linked has boundary \
         {linked}; build both from one version"
    )))
}

#[cfg(test)]
mod tests {
    use super::*;

    #[test]
    fn another_boundary_is_a_failure() {
        assert_eq!(same("jws-token", jws::BOUNDARY, jws::boundary()), Ok(()));
        for (written_for, linked) in [(1, 2), (2, 1), (0, u32::MAX)] {
            let Err(Failure::Other(says)) = same("jws-token", written_for, linked) else {
                panic!("{written_for} {linked}");
            };
            assert!(says.starts_with("jws-token: "), "{says}");
            assert!(says.contains(&format!("boundary {written_for} of")), "{says}");
            assert!(says.contains(&format!("has boundary {linked};")), "{says}");
        }
    }
}
