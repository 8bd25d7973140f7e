// A whole host: voice 0 plays one sample, and one frame is heard.

unsafe extern "C" {
    fn otto_reset(record: *mut u32, words: usize) -> u32;
    fn otto_write(record: *mut u32, words: usize, address: u32, value: u8) -> u32;
    fn otto_frame(
        record: *mut u32,
        words: usize,
        memory: *const u16,
        memory_words: usize,
        output: *mut i32,
        output_values: usize,
        missing: *mut u32,
    ) -> u32;
}

// LVOL, K2, K1, and CR with neither stop bit: the voice runs.
const SETTINGS: [(u32, u32); 4] = [(2, 0xFFF0), (7, 0xFFF0), (9, 0xFFF0), (0, 0x0300)];

fn main() {
    let mut machine = [0u32; 664];
    let memory = [20000u16; 2];
    let mut output = [0i32; 12];
    let mut missing = 0;
    let (record, words) = (machine.as_mut_ptr(), machine.len());
    let mut answers = Vec::new();

    // Each pointer is to as many values as its length says, and no two overlap.
    answers.push(unsafe { otto_reset(record, words) });
    for (number, value) in SETTINGS {
        for (address, byte) in (4 * number..).zip(value.to_be_bytes()) {
            answers.push(unsafe { otto_write(record, words, address, byte) });
        }
    }
    answers.push(unsafe {
        otto_frame(
            record,
            words,
            memory.as_ptr(),
            memory.len(),
            output.as_mut_ptr(),
            output.len(),
            &mut missing,
        )
    });
    let refused = answers.into_iter().find(|answer| *answer != 0).unwrap_or(0);
    println!("refused {refused}, heard {}, missing {missing}", output[0]);
}
