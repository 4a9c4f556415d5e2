//! What a comparison finds.

use std::fmt::Debug;

/// A call on which the two sides differ, with its input.
pub struct Difference {
    pub call: &'static str,
    pub independent: String,
    pub library: String,
    pub input: Vec<u8>,
}

pub type Compared<T> = Result<T, Difference>;

impl Difference {
    pub fn print(&self) {
        let hex: String = self
            .input
            .iter()
            .map(|byte| format!("{byte:02x}"))
            .collect();
        println!("{}: independent {}", self.call, self.independent);
        println!("{}: library     {}", self.call, self.library);
        println!("input {hex}");
    }
}

/// A difference unless the two sides agree.
pub fn same<T: PartialEq + Debug>(
    call: &'static str,
    input: &[u8],
    independent: T,
    library: T,
) -> Compared<()> {
    if independent == library {
        return Ok(());
    }
    Err(Difference {
        call,
        independent: format!("{independent:?}"),
        library: format!("{library:?}"),
        input: input.to_vec(),
    })
}
