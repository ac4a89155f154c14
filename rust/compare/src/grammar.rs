//! Grammar bytes as the documents describe them: read byte by byte, refused by 1 to 5 and 14, and written.

use berylskip::Refused;

#[derive(Clone, Copy, Debug, PartialEq, Eq)]
pub enum Symbol {
    Class(u8),
    Category(usize),
}

#[derive(Clone, Debug, PartialEq, Eq)]
pub struct Rule {
    pub left: usize,
    pub right: Vec<Symbol>,
}

#[derive(Clone, Debug, PartialEq, Eq)]
pub struct Grammar {
    pub class_flags: Vec<u8>,
    pub category_flags: Vec<u8>,
    pub rules: Vec<Rule>,
}

/// Where the reading stands; each byte is first asked to exist.
struct Reader<'a> {
    bytes: &'a [u8],
    at: usize,
}

impl Reader<'_> {
    fn refuse_last(&self, number: u8) -> Refused {
        Refused {
            number,
            place: self.at - 1,
        }
    }

    fn byte(&mut self) -> Result<u8, Refused> {
        match self.bytes.get(self.at) {
            None => Err(Refused {
                number: 1,
                place: self.bytes.len(),
            }),
            Some(&byte) => {
                self.at += 1;
                Ok(byte)
            }
        }
    }

    fn count(&mut self, least: u8, most: u8) -> Result<usize, Refused> {
        let count = self.byte()?;
        if count < least || count > most {
            return Err(self.refuse_last(2));
        }
        Ok(count as usize)
    }

    fn flags(&mut self, most: u8) -> Result<Vec<u8>, Refused> {
        let count = self.count(1, most)?;
        let mut flags = Vec::new();
        for _ in 0..count {
            let flag = self.byte()?;
            if flag > 1 {
                return Err(self.refuse_last(3));
            }
            flags.push(flag);
        }
        Ok(flags)
    }

    fn category(&mut self, byte: usize, categories: usize) -> Result<usize, Refused> {
        if byte < categories {
            Ok(byte)
        } else {
            Err(self.refuse_last(4))
        }
    }

    fn symbol(&mut self, classes: usize, categories: usize) -> Result<Symbol, Refused> {
        let byte = self.byte()?;
        if byte >= 128 {
            return Ok(Symbol::Category(
                self.category(byte as usize - 128, categories)?,
            ));
        }
        if (byte as usize) < classes {
            return Ok(Symbol::Class(byte));
        }
        Err(self.refuse_last(4))
    }

    fn rule(&mut self, classes: usize, categories: usize) -> Result<Rule, Refused> {
        let byte = self.byte()?;
        let left = self.category(byte as usize, categories)?;
        let length = self.count(0, 8)?;
        let mut right = Vec::new();
        for _ in 0..length {
            right.push(self.symbol(classes, categories)?);
        }
        Ok(Rule { left, right })
    }
}

/// The grammar that the bytes stand for, or the first fault in reading order.
pub fn read(bytes: &[u8]) -> Result<Grammar, Refused> {
    let mut reader = Reader { bytes, at: 0 };
    let class_flags = reader.flags(128)?;
    let category_flags = reader.flags(32)?;
    let count = reader.count(0, 128)?;
    let mut rules = Vec::new();
    for _ in 0..count {
        let place = reader.at;
        let rule = reader.rule(class_flags.len(), category_flags.len())?;
        if rules.contains(&rule) {
            return Err(Refused { number: 14, place });
        }
        rules.push(rule);
    }
    if reader.at < bytes.len() {
        return Err(Refused {
            number: 5,
            place: reader.at,
        });
    }
    Ok(Grammar {
        class_flags,
        category_flags,
        rules,
    })
}

/// The bytes of a grammar.
pub fn write(grammar: &Grammar) -> Vec<u8> {
    let mut bytes = vec![grammar.class_flags.len() as u8];
    bytes.extend(&grammar.class_flags);
    bytes.push(grammar.category_flags.len() as u8);
    bytes.extend(&grammar.category_flags);
    bytes.push(grammar.rules.len() as u8);
    for rule in &grammar.rules {
        bytes.push(rule.left as u8);
        bytes.push(rule.right.len() as u8);
        for symbol in &rule.right {
            bytes.push(match *symbol {
                Symbol::Class(class) => class,
                Symbol::Category(category) => 128 + category as u8,
            });
        }
    }
    bytes
}
