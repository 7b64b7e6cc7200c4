//! Directed examples of a client. What each call has to give is written beside it by hand, and compared while the Rust is driven.

use super::{hex, write_frame, Charge, Message, Run, ASK, FEE};

/// Document 01's fee of client 7, and a question.
const CHARGE: Charge = Charge {
    operation: FEE,
    member: 3,
    cents: 4_500,
};
const QUESTION: Charge = Charge {
    operation: ASK,
    member: 3,
    cents: 0,
};

/// A run of client 7 of three replicas with a title that says what it shows, and what of it isn't as it was to be.
struct Example {
    title: &'static str,
    run: Run,
    calls: usize,
    faults: Vec<String>,
}

impl Example {
    fn new(title: &'static str) -> Example {
        Example {
            title,
            run: Run::new(3, 7),
            calls: 0,
            faults: Vec::new(),
        }
    }

    /// The next request, which is to have this number; its frame is for this replica.
    fn request(mut self, charge: Charge, number: u64, primary: usize) -> Example {
        self.run
            .request(charge.operation, charge.member, charge.cents);
        let state = (number + 1, Some(number));
        self.gives(0, &requests(&[primary], number, charge), state)
    }

    /// A reply of this number and view, which answers the one that waits or doesn't; what waits after it.
    fn reply(mut self, number: u64, view: usize, answers: bool, pending: Option<u64>) -> Example {
        let next = self.run.inside().next;
        self.run.reply(number, view);
        self.gives(answers.into(), &[], (next, pending))
    }

    /// An idle call that sends this request to all three.
    fn again(mut self, number: u64, charge: Charge) -> Example {
        let next = self.run.inside().next;
        self.run.idle();
        let bytes = requests(&[0, 1, 2], number, charge);
        self.gives(0, &bytes, (next, Some(number)))
    }

    /// An idle call that sends nothing.
    fn silent(mut self) -> Example {
        let next = self.run.inside().next;
        self.run.idle();
        self.gives(0, &[], (next, None))
    }

    /// What the last call has to give: code, bytes, and the next and the pending number after it.
    fn gives(mut self, code: usize, bytes: &[u8], state: (u64, Option<u64>)) -> Example {
        self.calls += 1;
        let i = self.run.inside();
        let answer = format!("= {code} {} -", hex(bytes));
        let given = self.run.lines.lines().rev().nth(1).unwrap_or_default();
        if given != answer || (i.next, i.pending) != state {
            let (title, call) = (self.title, self.calls);
            let fault = format!(
                "{title}: call {call}: {given}, next {}, pending {:?}; wanted {answer}, {state:?}",
                i.next, i.pending
            );
            self.faults.push(fault);
        }
        self
    }
}

/// The frames of a request of client 7 for these replicas.
fn requests(to: &[usize], request_number: u64, op: Charge) -> Vec<u8> {
    let mut bytes = Vec::new();
    for id in to {
        let message = Message::Request {
            client_id: 7,
            request_number: request_number as usize,
            op,
        };
        write_frame(&mut bytes, *id, &message);
    }
    bytes
}

fn directed() -> [Example; 2] {
    [
        Example::new("A new request replaces one that waits: the older one's reply answers nothing, and only the newer one is sent again")
            .request(CHARGE, 0, 0)
            .request(QUESTION, 1, 0)
            .reply(0, 0, false, Some(1))
            .again(1, QUESTION)
            .reply(1, 0, true, None)
            .silent(),
        Example::new("A reply that answers nothing raises the view all the same: the next request goes to that view's primary")
            .reply(9, 4, false, None)
            .request(CHARGE, 0, 1)
            .reply(5, 2, false, Some(0))
            .again(0, CHARGE)
            .reply(0, 3, true, None),
    ]
}

/// The examples as a part of a trace, and how many runs and calls they are.
pub struct Examples {
    pub text: String,
    pub runs: usize,
    pub calls: usize,
}

/// All of them; or what of them isn't as it was to be.
pub fn all() -> Result<Examples, String> {
    let examples = directed();
    let faults: Vec<&str> = examples
        .iter()
        .flat_map(|e| &e.faults)
        .map(|f| &**f)
        .collect();
    if !faults.is_empty() {
        return Err(faults.join("\n"));
    }
    let texts = examples
        .iter()
        .map(|example| format!("# {}\n{}", example.title, example.run.lines));
    Ok(Examples {
        text: texts.collect(),
        runs: examples.len(),
        calls: examples.iter().map(|example| example.calls).sum(),
    })
}
