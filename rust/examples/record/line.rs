//! A call and its answer as one line of JSON.

/// What was written of a line.
pub struct Line(String);

/// A line for a call of this name.
pub fn call(name: &str) -> Line {
    Line(format!("{{\"call\":\"{name}\""))
}

impl Line {
    fn put(self, key: &str, value: impl std::fmt::Display) -> Line {
        Line(format!("{},\"{key}\":{value}", self.0))
    }

    pub fn number(self, key: &str, number: impl Into<u64>) -> Line {
        self.put(key, number.into())
    }

    pub fn bytes(self, key: &str, bytes: &[u8]) -> Line {
        self.put(key, format!("\"{}\"", hexadecimal(bytes)))
    }

    /// A list of numbers.
    pub fn numbers<T: Copy + Into<u64>>(self, key: &str, numbers: &[T]) -> Line {
        let numbers: Vec<u64> = numbers.iter().map(|&number| number.into()).collect();
        self.put(key, format!("{numbers:?}").replace(' ', ""))
    }

    /// A reach, if one is named.
    pub fn reach(self, reach: Option<u8>) -> Line {
        match reach {
            Some(reach) => self.number("reach", reach),
            None => self,
        }
    }

    /// Ends the line: the refusal, or 0 and what the call gives.
    pub fn answered<T>(self, answer: Result<T, u8>, given: impl FnOnce(Line, T) -> Line) {
        let line = match answer {
            Ok(value) => given(self.number("refusal", 0u8), value),
            Err(number) => self.number("refusal", number),
        };
        println!("{}}}", line.0);
    }
}

fn hexadecimal(bytes: &[u8]) -> String {
    bytes.iter().map(|byte| format!("{byte:02x}")).collect()
}
