//! What is claimed of an execution: orders, attributes, and the claims themselves.

use super::draft::Draft;
use super::words::{number_of, Fault, Words};
use super::{Claim, Says};
use crate::reference::record::{Attribute, Execution, Role, LINE_SIZE, MAX_PROCESSORS, QUESTIONS};

impl Draft {
    /// `0 2 1`, or `LV(US1) -> RVp(US1)`, or `none` for the empty order.
    pub(super) fn read_order(&self, words: &mut Words) -> Result<Vec<u8>, Fault> {
        self.need_programs("order", words)?;
        let execution = self.execution();
        let mut order = Vec::new();
        let empty = words.skip("none");
        while words
            .peek()
            .is_some_and(|word| !["steps", "on"].contains(&word))
        {
            if empty || words.skip("none") {
                return words.fault(
                    "`none` is an order with no operation: write it alone, or the operations without it"
                        .into(),
                );
            }
            order.push(self.read_operation(words, &execution)? as u8);
            words.skip("->");
        }
        if order.is_empty() && !empty {
            return words.fault(
                "nothing follows `order`: write operations, as `0 1 2` or `LV(0) -> RVp(0)`, or `none` for the empty order".into(),
            );
        }
        Ok(order)
    }

    /// An operation's number, or its role and its instruction.
    fn read_operation(&self, words: &mut Words, execution: &Execution) -> Result<usize, Fault> {
        const WANTED: &str =
            "the number of an operation, or R(..), LV(..), RVp(..) or F(..) with its instruction, or `none` alone for the empty order";
        let word = words.take(WANTED)?;
        let count = execution.operation_count();
        if let Some(number) = number_of(word) {
            if number < count as u128 {
                return Ok(number as usize);
            }
            return words.fault(match count {
                0 => format!(
                    "there is no operation {number}, since no processor has an instruction: write `none`"
                ),
                _ => format!("there is no operation {number}: write one below {count}"),
            });
        }
        let Some(role) = role_of(word) else {
            return words.fault(format!("`{word}` is not an operation: write {WANTED}"));
        };
        words.expect("(")?;
        let instruction = self.read_instruction_name(words)?;
        words.expect(")")?;
        let of = |&at: &usize| execution.operations[at].role == role;
        match execution.operations_of(instruction).find(of) {
            Some(at) => Ok(at),
            None => words.fault(format!(
                "the instruction has no operation {word}: a load has R, a store LV and an RV for each of the {} processors (p, q, ..), a semaphore R and these, an mf F",
                execution.processors
            )),
        }
    }

    /// What follows the word that a claim begins with.
    pub(super) fn read_claim(&mut self, key: &str, words: &mut Words) -> Result<Claim, Fault> {
        let line = words.line;
        self.need_programs(key, words)?;
        let number = match key {
            "breaks" => words.number_to(16, "the number of a rule, 1 to 16")? as u8,
            "operations" => words.number_to(128, "the number of operations, 0 to 128")? as u8,
            "refused" => read_question(words)?,
            _ => 0,
        };
        let mut on = None;
        let mut order = None;
        let mut steps = None;
        let mut by_sets = false;
        while let Some(word) = words.peek() {
            if words.skip("on") && on.is_none() {
                on = Some(self.read_attributes(words)?);
            } else if words.skip("order") && order.is_none() {
                order = Some(self.read_order(words)?);
            } else if words.skip("steps") && steps.is_none() {
                steps = Some(words.number("the number of steps")?);
            } else if words.skip("by") && !by_sets {
                words.expect("sets")?;
                by_sets = true;
            } else {
                words.take("")?;
                return words.fault(format!("`{word}` does not belong here, or stands here twice: after `{key}` write `on`, `order` or `steps`, each at most once"));
            }
        }
        let says = self.claim(key, number, order, steps, by_sets);
        Ok(Claim {
            line,
            on: on.unwrap_or_else(|| vec![vec![Attribute::WriteBack]; self.line_count()]),
            says: says.map_err(|what| (line, what))?,
        })
    }

    /// The claim, if it has the parts that it needs, and no others.
    fn claim(
        &self,
        key: &str,
        number: u8,
        order: Option<Vec<u8>>,
        steps: Option<u64>,
        by_sets: bool,
    ) -> Result<Says, String> {
        let few = steps.map(u32::try_from);
        match (key, order, few, by_sets) {
            ("refused", None, None, false) => Ok(Says::Refused(number)),
            ("operations", None, None, false) => Ok(Says::Operations(number.into())),
            ("legal" | "breaks", order, None, false) => {
                let order = order.or_else(|| self.order.clone()).ok_or_else(|| {
                    format!("`{key}` is said of no order: write `order` and the operations, or `order none`, here or in a line above")
                })?;
                Ok(match key {
                    "legal" => Says::Legal(order),
                    _ => Says::Breaks(number, order),
                })
            }
            ("allowed", order, None, false) => Ok(Says::Allowed { order, steps: None }),
            ("allowed", order, Some(Ok(steps)), false) => Ok(Says::Allowed {
                order,
                steps: Some(steps),
            }),
            ("forbidden", None, None, false) => Ok(Says::Forbidden { steps: None }),
            ("forbidden", None, Some(Ok(steps)), false) => {
                Ok(Says::Forbidden { steps: Some(steps) })
            }
            ("forbidden", None, Some(_), true) => Ok(Says::ForbiddenBySets {
                prefixes: steps.unwrap_or(0),
            }),
            ("unfinished", Some(position), Some(Ok(allowance)), false) => Ok(Says::Unfinished {
                position,
                allowance,
            }),
            _ => Err(format!(
                "`{key}` has not the parts that it takes: write {}",
                parts(key)
            )),
        }
    }

    /// `any`, `WB or WC`, or by places `x any, z UC1 or WC`.
    fn read_attributes(&self, words: &mut Words) -> Result<Vec<Vec<Attribute>>, Fault> {
        let count = self.line_count();
        let next = words.peek().unwrap_or("");
        if begins_alternatives(next) {
            return Ok(vec![read_alternatives(words)?; count]);
        }
        if self.find_address(next).is_none() {
            // Where nothing follows, that is the fault.
            words.take(&attributes())?;
            return words.fault(format!(
                "`{next}` is neither a memory attribute nor a place: write {}, or one of these after each place: {}",
                attributes(),
                self.place_names()
            ));
        }
        let mut on: Vec<Option<Vec<Attribute>>> = vec![None; count];
        loop {
            let address = self.read_address(words)?;
            let line = usize::from(address) / LINE_SIZE;
            if line >= count || on[line].is_some() {
                return words.fault("this line of memory is used by no instruction, or has its attribute already: write each line once".into());
            }
            on[line] = Some(read_alternatives(words)?);
            if !words.skip(",") {
                break;
            }
        }
        let unnamed = |line: &usize| on[*line].is_none() && self.touched().any(|at| at == *line);
        if let Some(line) = (0..count).find(unnamed) {
            return words.fault(format!(
                "the line of address {} has no attribute: write one for each line, or one for all",
                line * LINE_SIZE
            ));
        }
        let unused = vec![Attribute::WriteBack];
        Ok(on
            .into_iter()
            .map(|line| line.unwrap_or(unused.clone()))
            .collect())
    }
}

/// What a claim takes.
fn parts(key: &str) -> &'static str {
    match key {
        "refused" => "`refused`, the question's number and `on` at most",
        "operations" => "`operations`, their number and `on` at most",
        "legal" | "breaks" => "`on` and `order` at most",
        "allowed" => "`on`, `order` and `steps` at most, with steps up to 4294967295",
        "forbidden" => {
            "`on` and `steps` at most, with steps up to 4294967295, or `by sets` and `steps`"
        }
        _ => "`order` with the position left (`none` for the empty one) and `steps` with the allowance",
    }
}

/// The number of a question that is asked of a record.
fn read_question(words: &mut Words) -> Result<u8, Fault> {
    let number = words.number("the number of a question")?;
    let mut asked = QUESTIONS.into_iter();
    match asked.find(|&question| u64::from(question) == number) {
        Some(question) => Ok(question),
        None => {
            let numbers = QUESTIONS.map(|question| question.to_string()).join(", ");
            words.fault(format!(
                "no record fails question {number}: write one of {numbers}"
            ))
        }
    }
}

/// Whether a word begins the attributes of one line, or of all.
pub(super) fn begins_alternatives(word: &str) -> bool {
    word == "any" || attribute_of(word).is_some()
}

/// `any`, or `WB or WC`.
fn read_alternatives(words: &mut Words) -> Result<Vec<Attribute>, Fault> {
    if words.skip("any") {
        return Ok(Attribute::all());
    }
    let mut alternatives = Vec::new();
    loop {
        let word = words.take(&attributes())?;
        match attribute_of(word) {
            Some(attribute) => alternatives.push(attribute),
            None => {
                return words.fault(format!(
                    "`{word}` is not a memory attribute: write {}",
                    attributes()
                ))
            }
        }
        if !words.skip("or") {
            return Ok(alternatives);
        }
    }
}

fn attribute_of(word: &str) -> Option<Attribute> {
    Attribute::all().into_iter().find(|a| a.name() == word)
}

/// What may be written as an attribute.
fn attributes() -> String {
    let names: Vec<String> = Attribute::all().into_iter().map(Attribute::name).collect();
    format!("{} or any", names.join(", "))
}

/// `R`, `LV`, `F`, `RVp` or `RV0`; the processors are p, q, r, s, t, u, v, w.
fn role_of(word: &str) -> Option<Role> {
    match word {
        "R" => return Some(Role::Read),
        "LV" => return Some(Role::Local),
        "F" => return Some(Role::Fence),
        _ => {}
    }
    let processor = word.strip_prefix("RV")?;
    let numbered = processor.parse().ok();
    let named = "pqrstuvw".find(processor).filter(|_| processor.len() == 1);
    let at = numbered.or(named)?;
    (at < MAX_PROCESSORS).then_some(Role::Remote(at))
}
