//! A whole host: voice 0 plays one sample, and one frame is heard.

use otto::{Machine, Voice, CR_LP3, CR_LP4, K_OPEN, OUTPUT_VALUES, VOL_LOUDEST};

fn main() {
    let voice = Voice::ALL[0];
    let memory = [20000; 2];
    let mut output = [0; OUTPUT_VALUES];

    let mut machine = Machine::new();
    machine.write(voice.lvol(), VOL_LOUDEST);
    machine.write(voice.k2(), K_OPEN);
    machine.write(voice.k1(), K_OPEN);
    machine.write(voice.cr(), CR_LP3 | CR_LP4); // neither stop bit: it runs
    let frame = machine.frame(&memory, &mut output);

    println!(
        "refused {}, heard {}, missing {}",
        frame.err().map_or(0, u32::from),
        output[0],
        frame.unwrap_or(0)
    );
}
