//! Job texts whose programs are words, and jobs that seeds give.

/// All that a run depends on. Memory starts as zeros, since words in a job give no bytes of it.
pub struct Job {
    pub cores: u32,
    pub quantum: u32,
    pub line_words: u32,
    pub sets: u32,
    pub ways: u32,
    pub memory: u32,
    pub slots: u32,
    pub texts: Vec<Vec<u32>>,
}

const HEADS: [&str; 7] = ["cores", "quantum", "line", "sets", "ways", "memory", "slots"];
const MOST_WORDS: usize = 16_384;

impl Job {
    /// The bytes of a line.
    pub fn line_bytes(&self) -> u32 {
        4 * self.line_words
    }

    /// The lines of memory.
    pub fn lines(&self) -> usize {
        (self.memory / self.line_bytes()) as usize
    }

    /// The slots that no request's wait passes: 2N(N+1)².
    pub fn bound(&self) -> u64 {
        let cores = u64::from(self.cores);
        2 * cores * (cores + 1) * (cores + 1)
    }

    /// The accesses that a run may make at most.
    pub fn most_touches(&self) -> u64 {
        u64::from(self.slots) * u64::from(self.cores) * u64::from(self.quantum)
    }

    /// Reads a job text. What is wrong with it is told in words, not in those of pmsi.
    pub fn read(bytes: &[u8]) -> Result<Job, String> {
        let text = std::str::from_utf8(bytes).map_err(|fault| fault.to_string())?;
        let mut heads = [None; HEADS.len()];
        let mut programs: Vec<Option<Vec<u32>>> = vec![None; 16];
        let mut is_first = true;
        for (number, line) in text.lines().enumerate() {
            let line = line.split('#').next().unwrap_or("");
            let fields: Vec<&str> = line.split([' ', '\t']).filter(|field| !field.is_empty()).collect();
            if fields.is_empty() {
                continue;
            }
            let read = if is_first { read_version(&fields) } else { read_line(&fields, &mut heads, &mut programs) };
            read.map_err(|fault| format!("line {}: {fault}", number + 1))?;
            is_first = false;
        }
        Job::of_parts(heads, programs)
    }

    fn of_parts(heads: [Option<u32>; 7], programs: Vec<Option<Vec<u32>>>) -> Result<Job, String> {
        let head = |place: usize| heads[place].ok_or_else(|| format!("missing {}", HEADS[place]));
        let mut job = Job {
            cores: head(0)?,
            quantum: head(1)?,
            line_words: head(2)?,
            sets: head(3)?,
            ways: head(4)?,
            memory: head(5)?,
            slots: head(6)?,
            texts: Vec::new(),
        };
        if !job.is_within_limits() {
            return Err("a number is out of its limits".into());
        }
        for (core, program) in programs.into_iter().enumerate() {
            match program {
                Some(text) if core < job.cores as usize && text.len() <= MOST_WORDS => job.texts.push(text),
                None if core >= job.cores as usize => (),
                _ => return Err(format!("the program of core {core}")),
            }
        }
        Ok(job)
    }

    fn is_within_limits(&self) -> bool {
        (1..=16).contains(&self.cores)
            && (1..=256).contains(&self.quantum)
            && [4, 8, 16].contains(&self.line_words)
            && self.sets <= 256
            && self.sets.is_power_of_two()
            && (1..=8).contains(&self.ways)
            && (64..=1 << 20).contains(&self.memory)
            && self.memory % self.line_bytes() == 0
            && self.slots <= 1_000_000
    }

    /// The job that a seed gives: for each core 31 loads, stores, AMOs and additions at drawn addresses, in a loop.
    pub fn of_seed(seed: u32, cores: u32, slots: u32) -> Job {
        const LW_X5_X7: u32 = 0x0003_a283;
        const SW_X5_X7: u32 = 0x0053_a023;
        const AMOADD_X5_X11_X7: u32 = 0x00b3_a2af;
        const ADD_X5_X5_X7: u32 = 0x0072_82b3;
        const ADDI_X6_X6_1: u32 = 0x0013_0313;
        const JAL_X0_BACK_TO_0: u32 = 0xf05f_f06f;
        let mut state = u64::from(seed);
        let mut draw = || {
            state = state.wrapping_mul(6_364_136_223_846_793_005).wrapping_add(1_442_695_040_888_963_407);
            (state >> 32) as u32
        };
        let mut text_of_core = || {
            let mut text = Vec::with_capacity(64);
            for _ in 0..31 {
                let drawn = draw();
                let address = 4 * (drawn % 256);
                let addi_x7_x0 = (address << 20) + 0x393;
                let access = [LW_X5_X7, SW_X5_X7, AMOADD_X5_X11_X7, ADD_X5_X5_X7][(drawn / 256 % 4) as usize];
                text.extend([addi_x7_x0, access]);
            }
            text.extend([ADDI_X6_X6_1, JAL_X0_BACK_TO_0]);
            text
        };
        let texts = (0..cores).map(|_| text_of_core()).collect();
        Job { cores, quantum: 4, line_words: 4, sets: 2, ways: 2, memory: 1024, slots, texts }
    }

    /// The job's text.
    pub fn print(&self) -> String {
        let numbers = [self.cores, self.quantum, self.line_words, self.sets, self.ways, self.memory, self.slots];
        let mut text = String::from("pmsi 1\n");
        for (head, number) in HEADS.iter().zip(numbers) {
            text += &format!("{head} {number}\n");
        }
        for (core, words) in self.texts.iter().enumerate() {
            text += &format!("core {core} hex");
            for word in words {
                text += &format!(" {word:08x}");
            }
            text.push('\n');
        }
        text
    }
}

fn read_version(fields: &[&str]) -> Result<(), &'static str> {
    if fields == ["pmsi", "1"] {
        Ok(())
    } else {
        Err("version")
    }
}

/// One line after the first.
fn read_line(fields: &[&str], heads: &mut [Option<u32>], programs: &mut [Option<Vec<u32>>]) -> Result<(), &'static str> {
    match *fields {
        ["core", core, "hex", ref words @ ..] => {
            let core = read_number(core)? as usize;
            let program = programs.get_mut(core).ok_or("core")?;
            let words = words.iter().map(|word| read_word(word)).collect::<Result<_, _>>()?;
            if program.replace(words).is_some() {
                Err("twice")
            } else {
                Ok(())
            }
        }
        [head, number] => {
            let place = HEADS.iter().position(|known| *known == head).ok_or("word")?;
            if heads[place].replace(read_number(number)?).is_some() {
                Err("twice")
            } else {
                Ok(())
            }
        }
        _ => Err("only heads and programs as words are read here"),
    }
}

fn read_number(field: &str) -> Result<u32, &'static str> {
    if field.bytes().all(|byte| byte.is_ascii_digit()) {
        field.parse().map_err(|_| "number")
    } else {
        Err("number")
    }
}

fn read_word(field: &str) -> Result<u32, &'static str> {
    if field.len() == 8 && field.bytes().all(|byte| byte.is_ascii_hexdigit()) {
        u32::from_str_radix(field, 16).map_err(|_| "number")
    } else {
        Err("number")
    }
}
