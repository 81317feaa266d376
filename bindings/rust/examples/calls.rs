//! Makes the calls that it reads, one a line, and prints what came of each.
//!
//! A line has the call, the replica (a number from 0), and the texts in hexadecimal: `-` is an empty one, and `$` the text
//! that was printed last. So two replicas can talk. Each language has such a program, and tests/library.py compares them.
use fedbundle::{canon, report, Refused, Replica, Taken};
use std::collections::HashMap;
use std::io::stdin;

#[derive(Default)]
struct Calls {
    replicas: HashMap<String, Replica>,
    last: Vec<u8>,
}

fn hex_of(text: &[u8]) -> String {
    text.iter().map(|byte| format!("{byte:02x}")).collect()
}

impl Calls {
    fn text_of(&self, word: &str) -> Vec<u8> {
        match word {
            "$" => self.last.clone(),
            "-" => Vec::new(),
            _ => (0..word.len()).step_by(2).map(|i| u8::from_str_radix(&word[i..i + 2], 16).unwrap()).collect(),
        }
    }

    fn show(&mut self, text: Option<Vec<u8>>) -> String {
        match text {
            None => "none".into(),
            Some(text) => {
                let shown = if text.is_empty() { "-".into() } else { hex_of(&text) };
                self.last = text;
                format!("text {shown}")
            }
        }
    }

    fn make(&mut self, words: &[&str]) -> Result<String, Refused> {
        let words_of_texts = if words[0] == "have" { &[] } else { &words[2..] };
        let texts: Vec<Vec<u8>> = words_of_texts.iter().map(|word| self.text_of(word)).collect();
        if words[0] == "canon" {
            let text = canon(&texts[0], &texts[1])?;
            return Ok(self.show(Some(text)));
        }
        if words[0] == "report_of" {
            let (text, count) = report(&texts[0], &texts[1])?;
            let shown = format!("counted {count} {}", hex_of(&text));
            self.last = text;
            return Ok(shown);
        }
        if words[0] == "open" {
            let opened = Replica::open(&texts[0], &texts[1])?;
            self.replicas.insert(words[1].into(), opened);
            return Ok("done 0".into());
        }
        if words[0] == "close" {
            self.replicas.remove(words[1]);
            return Ok("done 0".into());
        }
        let Some(replica) = self.replicas.get_mut(words[1]) else {
            return Err(Refused { number: -1, text: "usage".into() });
        };
        let text = match words[0] {
            "take" => return replica.take(&texts[0]).map(say),
            "distrust" => return replica.distrust(&texts[0], &texts[1]).map(say),
            "merge" => return replica.merge(&texts[0]).map(|count| format!("done {count}")),
            "absorb" => return replica.absorb(&texts[0]).map(|count| format!("done {count}")),
            "observe" => Some(replica.observe(&texts[0], &texts[1], &texts[2], &texts[3])?),
            "current" => replica.current(&texts[0])?,
            "explain" => replica.explain(&texts[0], &texts[1])?,
            "report" => Some(replica.report()?),
            "snapshot" => Some(replica.snapshot()?),
            "answer" => Some(replica.answer(&texts[0])?),
            "have" => Some(replica.have(words[2].parse().unwrap())?),
            call => panic!("no such call: {call}"),
        };
        Ok(self.show(text))
    }
}

fn say(taken: Taken) -> String {
    match taken {
        Taken::New(count) => format!("done {count}"),
        Taken::Already => "already".into(),
    }
}

fn main() {
    let mut calls = Calls::default();
    for line in stdin().lines() {
        let line = line.unwrap();
        match calls.make(&line.split_whitespace().collect::<Vec<_>>()) {
            Ok(said) => println!("{said}"),
            Err(refused) => println!("refused {} {}", refused.number, refused.text),
        }
    }
}
