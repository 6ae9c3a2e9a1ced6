//! The fields of an input line, taken one after another.

use std::str::SplitWhitespace;

use oracle::{immediate, Area, Kind, Layout, Operand, Place, Pointer, Registers, Word, OTHER_FORM};

/// Bytes that one line may stand for.
const MAX_BYTES: usize = 1 << 26;

pub struct Fields<'a> {
    fields: SplitWhitespace<'a>,
    layout: &'a Layout,
}

type Parsed<T> = Result<T, String>;

impl<'a> Fields<'a> {
    pub fn new(fields: SplitWhitespace<'a>, layout: &'a Layout) -> Self {
        Self { fields, layout }
    }

    fn next(&mut self, what: &str) -> Parsed<&'a str> {
        self.fields.next().ok_or_else(|| format!("{what} is missing"))
    }

    pub fn name(&mut self, what: &str) -> Parsed<&'a str> {
        self.next(what)
    }

    /// The line must end here.
    pub fn end(&mut self) -> Parsed<()> {
        match self.fields.next() {
            None => Ok(()),
            Some(field) => Err(format!("nothing may follow here, and '{field}' does")),
        }
    }

    pub fn number(&mut self, what: &str) -> Parsed<u32> {
        number(self.next(what)?, what)
    }

    pub fn long_number(&mut self, what: &str) -> Parsed<u64> {
        let field = self.next(what)?;
        field.parse().map_err(|_| format!("{what} must be a decimal number, not '{field}'"))
    }

    pub fn page(&mut self) -> Parsed<u32> {
        page(self.next("the page")?, self.layout)
    }

    pub fn word(&mut self, what: &str) -> Parsed<Word> {
        word(self.next(what)?, what)
    }

    pub fn bytes(&mut self) -> Parsed<Vec<u8>> {
        let field = self.next("the bytes")?;
        let (digits, times) = match field.split_once('*') {
            Some((digits, times)) => (digits, number(times, "the count after '*'")? as usize),
            None => (field, 1),
        };
        let bytes = hex(digits).ok_or_else(|| {
            format!("bytes are pairs of hexadecimal digits or '-', not '{field}'")
        })?;
        if bytes.len().saturating_mul(times) > MAX_BYTES {
            return Err(format!("'{field}' stands for more than {MAX_BYTES} bytes"));
        }
        Ok(bytes.repeat(times))
    }

    pub fn area(&mut self) -> Parsed<Area> {
        match self.next("the area")? {
            "heap" => Ok(Area::Heap),
            "aux" => Ok(Area::Aux),
            other => Err(format!("the area is heap or aux, not '{other}'")),
        }
    }

    pub fn operand(&mut self) -> Parsed<Operand> {
        let field = self.next("the operand")?;
        self.operand_of(field)
    }

    fn operand_of(&self, field: &str) -> Parsed<Operand> {
        let fault = || format!("an operand is reg:HEX, tag:HEX, ptr:.. or imm:N, not '{field}'");
        let (form, text) = field.split_once(':').ok_or_else(fault)?;
        let (word, tagged) = match form {
            "reg" => (word(text, "the operand")?, false),
            "tag" => (word(text, "the operand")?, true),
            "ptr" => (pointer_word(text, self.layout)?, true),
            "imm" => {
                return Ok(Operand::Immediate(immediate_number(text)?));
            }
            _ => return Err(fault()),
        };
        Ok(Operand::Register { word, tagged })
    }

    /// All registers, each as `rN=OPERAND`; those that are not named hold 0.
    pub fn registers(&mut self) -> Parsed<Registers> {
        let mut registers = Registers::default();
        while let Some(field) = self.fields.next() {
            let fault = || format!("a register is r0=OPERAND to r15=OPERAND, not '{field}'");
            let (name, operand) = field.split_once('=').ok_or_else(fault)?;
            let number = register_number(name).filter(|number| *number < 16).ok_or_else(fault)?;
            match self.operand_of(operand)? {
                Operand::Register { word, tagged } => registers.put(number.into(), word, tagged),
                Operand::Immediate(_) => return Err(format!("no register holds '{operand}'")),
            }
        }
        Ok(registers)
    }

    /// The code of a place: `rN` for any number of 16 bits, `imm:N`, or `form:CODE` for another form.
    pub fn place(&mut self, what: &str) -> Parsed<u32> {
        let field = self.next(what)?;
        let fault = || format!("{what} is rN, imm:N or form:CODE, not '{field}'");
        if let Some(number) = register_number(field) {
            return Ok(number.into());
        }
        match field.split_once(':').ok_or_else(fault)? {
            ("imm", text) => Ok(immediate(immediate_number(text)?)),
            ("form", text) => match number(text, what)? {
                code if code >= OTHER_FORM => Ok(code),
                _ => Err(format!("other forms begin at {OTHER_FORM}, and '{field}' is none")),
            },
            _ => Err(fault()),
        }
    }

    pub fn pointer(&mut self) -> Parsed<Pointer> {
        Ok(Pointer {
            offset: self.number("the offset")?,
            page: self.page()?,
            start: self.number("the start")?,
            length: self.number("the length")?,
        })
    }

    /// Takes the field `mark`, if it comes next.
    pub fn mark(&mut self, mark: &str) -> bool {
        let mut ahead = self.fields.clone();
        let here = ahead.next() == Some(mark);
        if here {
            self.fields = ahead;
        }
        here
    }

    /// The marks at a line's end: `inc`, and `hook=ADDRESS`.
    pub fn marks(&mut self) -> Parsed<(bool, Option<u32>)> {
        let (mut increment, mut hook) = (false, None);
        for field in self.fields.by_ref() {
            match field.strip_prefix("hook=") {
                Some(address) => hook = Some(number(address, "the hook address")?),
                None if field == "inc" => increment = true,
                None => return Err(format!("'{field}' is neither inc nor hook=ADDRESS")),
            }
        }
        Ok((increment, hook))
    }

    /// Like `marks`, where no hook is possible.
    pub fn increment(&mut self) -> Parsed<bool> {
        match self.marks()? {
            (increment, None) => Ok(increment),
            _ => Err("only a store has a hook".into()),
        }
    }
}

fn number(field: &str, what: &str) -> Parsed<u32> {
    field.parse().map_err(|_| format!("{what} must be 0 to 4294967295, not '{field}'"))
}

fn word(field: &str, what: &str) -> Parsed<Word> {
    Word::from_hex(field)
        .ok_or_else(|| format!("{what} must be 1 to 64 hexadecimal digits, not '{field}'"))
}

/// The number of `rN`.
fn register_number(field: &str) -> Option<u16> {
    field.strip_prefix('r')?.parse().ok()
}

fn immediate_number(text: &str) -> Parsed<u16> {
    text.parse().map_err(|_| format!("an immediate is 0 to 65535, not '{text}'"))
}

fn hex(digits: &str) -> Option<Vec<u8>> {
    if digits == "-" {
        return Some(Vec::new());
    }
    let values: Option<Vec<u8>> =
        digits.chars().map(|digit| digit.to_digit(16).map(|value| value as u8)).collect();
    let values = values?;
    (values.len() % 2 == 0).then(|| values.chunks(2).map(|pair| pair[0] << 4 | pair[1]).collect())
}

/// A page by its id or by its place: `static`, `heap:3`; `gap:3` is the base of group 3, plus 1.
fn page(field: &str, layout: &Layout) -> Parsed<u32> {
    let place = match field {
        "static" => Place::Static,
        "calldata" => Place::Calldata,
        "bootheap" => Place::BootloaderHeap,
        "bootaux" => Place::BootloaderAux,
        _ => match field.split_once(':') {
            None => return number(field, "the page"),
            Some((kind, group)) => {
                let group = number(group, "the group")?;
                let kind = match kind {
                    "code" | "gap" => Kind::Code,
                    "heap" => Kind::Heap,
                    "aux" => Kind::Aux,
                    _ => return Err(format!("no page is named '{field}'")),
                };
                Place::Dynamic { group, kind }
            }
        },
    };
    let id = layout.id(place).and_then(|id| id.checked_add(u32::from(field.starts_with("gap"))));
    id.ok_or_else(|| format!("this layout has no page '{field}' in 32 bits"))
}

/// The word of a pointer given as `OFFSET,PAGE,START,LENGTH`.
fn pointer_word(text: &str, layout: &Layout) -> Parsed<Word> {
    let fields: Vec<&str> = text.split(',').collect();
    let [offset, of, start, length] = fields[..] else {
        return Err("a pointer operand is ptr:OFFSET,PAGE,START,LENGTH".into());
    };
    let join = |low: u32, high: u32| u64::from(high) << 32 | u64::from(low);
    let low = join(number(offset, "the offset")?, page(of, layout)?);
    let high = join(number(start, "the start")?, number(length, "the length")?);
    Ok(Word([low, high, 0, 0]))
}
