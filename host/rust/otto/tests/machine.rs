//! The machine's calls, each against the bytes that it stands for or the values that it must give.

use otto::*;

/// Numbers without an order, always the same ones.
struct Numbers(u32);

impl Numbers {
    fn next(&mut self) -> u32 {
        self.0 ^= self.0 << 13;
        self.0 ^= self.0 >> 17;
        self.0 ^= self.0 << 5;
        self.0
    }
}

fn registers_of(voice: Voice) -> [Register; 20] {
    [
        voice.cr(),
        voice.fc(),
        voice.lvol(),
        voice.lvramp(),
        voice.rvol(),
        voice.rvramp(),
        voice.ecount(),
        voice.k2(),
        voice.k2ramp(),
        voice.k1(),
        voice.k1ramp(),
        voice.start(),
        voice.end(),
        voice.accum(),
        voice.o4_n1(),
        voice.o3_n1(),
        voice.o3_n2(),
        voice.o2_n1(),
        voice.o2_n2(),
        voice.o1_n1(),
    ]
}

fn all_registers() -> Vec<Register> {
    let shared = [
        Register::ACTV,
        Register::MODE,
        Register::W_ST,
        Register::W_END,
        Register::LR_END,
        Register::PAR,
        Register::IRQV,
        Register::PAGE,
    ];
    let sums = Channel::ALL
        .into_iter()
        .flat_map(|channel| [channel.left(), channel.right()]);

    Voice::ALL
        .into_iter()
        .flat_map(registers_of)
        .chain(shared)
        .chain(sums)
        .collect()
}

/// A machine whose registers, page and latches hold anything.
fn any_machine(numbers: &mut Numbers) -> Machine {
    let mut machine = Machine::new();

    for register in all_registers() {
        machine.write(register, numbers.next());
    }
    machine.set_pot(numbers.next() % 1024).unwrap();
    machine.write(Register::PAGE, numbers.next());
    machine.read_byte(Address(numbers.next() % 13 * 4)).unwrap();
    for address in [0, 1, 2] {
        machine
            .write_byte(Address(address), numbers.next() as u8)
            .unwrap();
    }
    machine
}

/// Puts the machine on the register's lowest page, by bytes, if it is on none of its pages.
fn turn_to(machine: &mut Machine, register: Register) {
    let page = machine.record()[Register::PAGE.word()];

    if !register.is_on(page) {
        put(machine, Register::PAGE, register.lowest_page());
    }
}

fn put(machine: &mut Machine, register: Register, value: u32) {
    for (address, byte) in register.addresses().into_iter().zip(value.to_be_bytes()) {
        machine.write_byte(address, byte).unwrap();
    }
}

fn get(machine: &mut Machine, register: Register) -> u32 {
    u32::from_be_bytes(
        register
            .addresses()
            .map(|address| machine.read_byte(address).unwrap()),
    )
}

#[test]
fn a_register_is_written_as_by_its_bytes() {
    let mut numbers = Numbers(1);

    for register in all_registers() {
        let mut whole = any_machine(&mut numbers);
        let mut by_bytes = whole.clone();
        let value = numbers.next();

        whole.write(register, value);
        turn_to(&mut by_bytes, register);
        put(&mut by_bytes, register, value);
        assert_eq!(whole, by_bytes, "{register:?}");
    }
}

/// But for what waits to be written, which a read leaves.
#[test]
fn a_register_is_read_as_by_its_bytes() {
    let mut numbers = Numbers(2);

    for register in all_registers() {
        let mut whole = any_machine(&mut numbers);
        let mut by_bytes = whole.clone();
        let waits = whole.record()[WORD_WRITE_LATCH];

        turn_to(&mut by_bytes, register);
        assert_eq!(whole.read(register), get(&mut by_bytes, register));
        let mut words = *by_bytes.record();
        words[WORD_WRITE_LATCH] = waits;
        assert_eq!(whole.record(), &words, "{register:?}");
    }
}

/// All bits and none make a difference in the register's word, and in the mask if it is CR.
#[test]
fn a_register_is_in_its_word() {
    for register in all_registers() {
        let [all, none] = [u32::MAX, 0].map(|value| {
            let mut machine = Machine::new();
            machine.write(register, value);
            machine
        });
        let is_written = register != Register::PAR && register != Register::IRQV;

        for word in 0..RECORD_WORDS {
            let may_differ = word == register.word() && is_written;
            if word != WORD_WAITING {
                assert_eq!(
                    all.record()[word] != none.record()[word],
                    may_differ,
                    "{register:?}, word {word}"
                );
            }
        }
    }
}

#[test]
fn a_register_is_on_its_pages() {
    for register in all_registers() {
        for page in 0..128 {
            let [all, none] = [u32::MAX, 0].map(|value| {
                let mut machine = Machine::new();
                machine.write(Register::PAGE, page);
                put(&mut machine, register, value);
                machine.record()[register.word()]
            });
            if register == Register::PAR || register == Register::IRQV {
                assert!(register.is_on(page));
            } else {
                assert_eq!(all != none, register.is_on(page), "{register:?}, {page}");
            }
        }
        assert!(register.is_on(register.lowest_page()));
        assert!((0..register.lowest_page()).all(|page| !register.is_on(page)));
    }
}

#[test]
fn numbers_have_bounds() {
    for number in 0..200 {
        let voice = Voice::new(number);
        let channel = Channel::new(number);
        let bank = Bank::new(number);

        assert_eq!(voice, Voice::ALL.get(number as usize).copied());
        assert_eq!(channel, Channel::ALL.get(number as usize).copied());
        assert_eq!(bank, Bank::ALL.get(number as usize).copied());
        assert_eq!(voice.map_or(number, Voice::number), number);
        assert_eq!(channel.map_or(number, Channel::number), number);
        assert_eq!(bank.map_or(number, Bank::number), number);
    }
    assert_eq!(
        (Voice::ALL.len(), Channel::ALL.len(), Bank::ALL.len()),
        (32, 6, 4)
    );
}

#[test]
fn bits_of_cr_choose_the_channel_and_the_bank() {
    let mut memory = vec![0; MOST_MEMORY_WORDS];

    for bank in Bank::ALL {
        let first = BANK_WORDS * bank.number() as usize;
        memory[first..first + 2].fill(5000 * (bank.number() as u16 + 1));
    }
    for channel in Channel::ALL {
        let heard = Bank::ALL.map(|bank| {
            let output = frame_of_voice_0(channel.cr_bits() | bank.cr_bits(), &memory);
            // Volume 0, on the right, is not silence.
            let loud: Vec<usize> = (0..OUTPUT_VALUES).filter(|i| output[*i] > 10).collect();
            assert_eq!(loud, [2 * channel.number() as usize]);
            output[loud[0]]
        });
        let quarter = heard[3] / 4;
        assert_eq!(
            heard.map(|value| (value + quarter / 2) / quarter),
            [1, 2, 3, 4]
        );
    }
}

/// A machine whose voice 0 is at its loudest on the left, with bits of CR.
fn sounding(bits: u32) -> Machine {
    let voice = Voice::ALL[0];
    let mut machine = Machine::new();

    machine.write(voice.lvol(), VOL_LOUDEST);
    machine.write(voice.k1(), K_OPEN);
    machine.write(voice.k2(), K_OPEN);
    machine.write(voice.cr(), CR_LP3 | CR_LP4 | bits);
    machine
}

fn frame_of_voice_0(bits: u32, memory: &[u16]) -> [i32; OUTPUT_VALUES] {
    let mut output = [0; OUTPUT_VALUES];

    assert_eq!(sounding(bits).frame(memory, &mut output), Ok(0));
    output
}

#[test]
fn a_frame_counts_what_is_missing() {
    for (memory, missing) in [(&[20000; 2][..], 0), (&[20000], 1), (&[], 2)] {
        let mut output = [0; OUTPUT_VALUES];
        let mut machine = sounding(0);

        assert_eq!(machine.frame(memory, &mut output), Ok(missing));
        assert_eq!(output[0] == 319_055, !memory.is_empty());
    }
}

#[test]
fn a_refused_frame_changes_nothing() {
    let too_long = vec![0; MOST_MEMORY_WORDS + 1];
    let mut few = sounding(0);
    few.write(Register::ACTV, LEAST_ACTV - 1);

    for (mut machine, memory, refusal) in [
        (sounding(0), &too_long[..], Refusal::MemoryLength),
        (few, &[20000; 2], Refusal::TooFewVoices),
    ] {
        let before = machine.clone();
        let mut output = [7; OUTPUT_VALUES];

        assert_eq!(machine.frame(memory, &mut output), Err(refusal));
        assert_eq!((machine, output), (before, [7; OUTPUT_VALUES]));
    }
}

#[test]
fn a_clone_plays_on_as_the_machine_does() {
    let memory: Vec<u16> = (0..1000).map(|i| i * 31).collect();
    let mut machine = sounding(0);
    machine.write(Voice::ALL[0].fc(), WHOLE_SAMPLE / 2);
    machine.write(Voice::ALL[0].end(), 900 * WHOLE_SAMPLE);
    let hear = |machine: &mut Machine| -> Vec<[i32; OUTPUT_VALUES]> {
        (0..100)
            .map(|_| {
                let mut output = [0; OUTPUT_VALUES];
                machine.frame(&memory, &mut output).unwrap();
                output
            })
            .collect()
    };

    hear(&mut machine);
    let mut saved = machine.clone();
    let heard = hear(&mut machine);
    assert_ne!(heard[0], heard[99]);
    assert_eq!(hear(&mut saved), heard);
    assert_eq!(machine, saved);
}

#[test]
fn stored_words_are_taken_or_refused() {
    let mut kept = sounding(0);
    kept.write(Voice::ALL[31].cr(), CR_STP1 | CR_IRQ);
    let stored = *kept.record();
    let mut machine = Machine::new();
    let mut wrong = stored;
    wrong[Voice::ALL[0].fc().word()] = 0x20000; // FC has 17 bits
    let mut untrue = stored;
    untrue[WORD_WAITING] ^= 1;

    for (words, refusal) in [
        (&[][..], Refusal::RecordLength),
        (&stored[1..], Refusal::RecordLength),
        (&wrong, Refusal::RecordInvalid),
        (&untrue, Refusal::RecordInvalid),
    ] {
        assert_eq!(machine.restore(words), Err(refusal));
        assert_eq!(machine, Machine::new());
    }
    assert_eq!(machine.restore(&stored), Ok(()));
    assert_eq!(machine, kept);
    machine.reset();
    assert_eq!(machine, Machine::default());
}

#[test]
fn an_address_and_a_pot_result_have_bounds() {
    let mut machine = Machine::new();

    assert_eq!(machine.write_byte(Address(63), 0), Ok(()));
    assert_eq!(
        machine.write_byte(Address(64), 0),
        Err(Refusal::AddressAbove)
    );
    assert_eq!(machine.read_byte(Address(63)), Ok(0));
    assert_eq!(machine.read_byte(Address(64)), Err(Refusal::AddressAbove));
    assert_eq!(machine.set_pot(1024), Err(Refusal::PotAbove));
    assert_eq!(machine.read(Register::PAR), 1023);
    assert_eq!(machine.set_pot(345), Ok(()));
    assert_eq!(machine.read(Register::PAR), 345);
    assert_eq!(machine.read(Register::PAR), 1023);
}

/// Voices 5 and 6 interrupt, and 5 is withdrawn while the vector names it.
#[test]
fn interrupts_are_taken_one_by_one() {
    let [five, six] = [Voice::ALL[5], Voice::ALL[6]];
    let mut machine = Machine::new();
    let mut output = [0; OUTPUT_VALUES];

    assert_eq!(machine.take_interrupt(), None);
    machine.write(six.cr(), CR_STP1 | CR_IRQ);
    machine.write(five.cr(), CR_STP1 | CR_IRQ);
    assert_eq!(machine.waiting(), 0b110_0000);
    assert_eq!(machine.take_interrupt(), None, "the vector is empty");
    machine.frame(&[], &mut output).unwrap();
    machine.write(five.cr(), CR_STP1);
    assert_eq!(machine.take_interrupt(), None, "withdrawn");
    machine.frame(&[], &mut output).unwrap();
    assert_eq!(machine.take_interrupt(), Some(six));
    assert_eq!(machine.waiting(), 0);
    assert_eq!(machine.take_interrupt(), None);
}

#[test]
fn where_no_voice_waits_the_vector_is_not_read() {
    let five = Voice::ALL[5];
    let mut machine = Machine::new();
    let mut output = [0; OUTPUT_VALUES];

    machine.write(five.cr(), CR_STP1 | CR_IRQ);
    machine.frame(&[], &mut output).unwrap();
    machine.write(five.cr(), CR_STP1);
    let before = machine.clone();
    assert_eq!(before.record()[Register::IRQV.word()], five.number());
    assert_eq!(machine.take_interrupt(), None);
    assert_eq!(machine, before);
}

/// A WAVE file of samples, with a loop of one type over all of them.
fn wave(samples: &[i16], loop_type: u32) -> Vec<u8> {
    let chunk = |name: &[u8; 4], bytes: &[u8]| {
        [&name[..], &(bytes.len() as u32).to_le_bytes(), bytes].concat()
    };
    let bytes_of =
        |words: &[u32]| -> Vec<u8> { words.iter().flat_map(|word| word.to_le_bytes()).collect() };
    let format = [0x0001_0001, 31250, 62500, 0x0010_0002];
    let last = samples.len() as u32 - 1;
    let sampler = [0, 0, 0, 0, 0, 0, 0, 1, 0, 0, loop_type, 0, last, 0, 0];
    let data: Vec<u8> = samples.iter().flat_map(|s| s.to_le_bytes()).collect();

    chunk(
        b"RIFF",
        &[
            b"WAVE".to_vec(),
            chunk(b"fmt ", &bytes_of(&format)),
            chunk(b"smpl", &bytes_of(&sampler)),
            chunk(b"data", &data),
        ]
        .concat(),
    )
}

#[test]
fn a_wave_file_is_imported_or_refused() {
    let samples = [1, -2, 32767, -32768];
    let mut memory = [9; 8];

    for (loop_type, loop_bits) in [(0, CR_LPE), (1, CR_LPE | CR_BLE), (2, CR_LPE | CR_DIR)] {
        assert_eq!(
            import_wave(&wave(&samples, loop_type), &mut memory, 3),
            Ok(Import {
                start: 3 * WHOLE_SAMPLE,
                end: 7 * WHOLE_SAMPLE,
                loop_bits,
                samples: 4,
            })
        );
        assert_eq!(memory, [9, 9, 9, 1, 0xFFFE, 0x7FFF, 0x8000, 9]);
    }
    for (file, word, refusal) in [
        (&[][..], 0, Refusal::FileBroken),
        (&wave(&samples, 3), 0, Refusal::LoopInvalid),
        (&wave(&samples, 0), 5, Refusal::NoPlace),
        (&wave(&samples, 0)[..44], 0, Refusal::FileBroken),
    ] {
        assert_eq!(import_wave(file, &mut memory, word), Err(refusal));
        assert_eq!(memory, [9, 9, 9, 1, 0xFFFE, 0x7FFF, 0x8000, 9]);
    }
}

#[test]
fn a_code_is_the_nearest_from_below() {
    assert_eq!((compress(32767), expand(255)), (255, 31744));
    assert_eq!((compress(-32768), expand(224)), (224, -32768));
    for code in 0..=255 {
        assert_eq!(expand(compress(expand(code))), expand(code));
    }
    for sample in i16::MIN..=i16::MAX {
        assert!(expand(compress(sample)) <= sample);
    }
}
