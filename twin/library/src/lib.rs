//! The audit library for C, called from the same process as the twin.

pub mod allocations;
pub mod long;

/// Declares the functions of the library, and gives each one's line in C.
macro_rules! declared {
    ($(fn $name:ident($($argument:ident: $type:ty),*) -> $answer:ty;)*) => {
        extern "C" {
            $(fn $name($($argument: $type),*) -> $answer;)*
        }

        /// The declarations as a header has them, each with single spaces.
        pub fn in_c() -> Vec<String> {
            vec![$({
                let arguments = [$(with_name(stringify!($type), stringify!($argument))),*];
                format!("{}({});", with_name(stringify!($answer), stringify!($name)), arguments.join(", "))
            }),*]
        }
    };
}

declared! {
    fn riszvomaj_report(setup: *const u8, setup_length: usize, draws: *const u8, draws_length: usize, report: *mut u8, report_length: usize) -> usize;
    fn riszvomaj_read_setup(setup: *const u8, setup_length: usize, offset: *mut usize) -> u8;
}

fn with_name(rust: &str, name: &str) -> String {
    let c = match rust {
        "*const u8" => "const uint8_t *",
        "*mut u8" => "uint8_t *",
        "*mut usize" => "size_t *",
        "usize" => "size_t ",
        "u8" => "uint8_t ",
        other => panic!("{other} has no C type here"),
    };
    format!("{c}{name}")
}

/// Whether the header declares just these functions.
pub fn header_agrees() -> bool {
    let header = include_str!("../../../crates/riszvomaj/include/riszvomaj.h");
    let words: Vec<&str> = header.split_whitespace().collect();
    let text = words.join(" ");
    let in_name = |c: char| c.is_alphanumeric() || c == '_';
    let functions = text.split("riszvomaj_").skip(1).filter(|after| after.trim_start_matches(in_name).starts_with('('));
    let lines = in_c();
    functions.count() == lines.len() && lines.iter().all(|line| text.contains(line.as_str()))
}

/// The report of two files into the buffer; how long it is, whether it fits or not.
pub fn report(setup: &[u8], draws: &[u8], out: &mut [u8]) -> usize {
    // The pointers come with the lengths of what they point to.
    unsafe {
        riszvomaj_report(setup.as_ptr(), setup.len(), draws.as_ptr(), draws.len(), out.as_mut_ptr(), out.len())
    }
}

/// Reads a setup file: nothing where it is accepted, or the refusal's number and its offset.
pub fn read_setup(setup: &[u8]) -> Option<(u8, usize)> {
    let mut offset = usize::MAX;
    let number = unsafe { riszvomaj_read_setup(setup.as_ptr(), setup.len(), &mut offset) };
    (number != 0).then_some((number, offset))
}
