//! What orders gave to the host, channel by channel: what all their lists begin with, how far the
//! furthest has come, and where lists part.

use crate::program::Program;

/// What an output passed to the host; none is an absence.
type Message = Option<i32>;

/// Most messages of a list that are shown.
const SHOWN: usize = 16;

/// The lists of all orders, for each channel to the host.
#[derive(Default)]
pub struct Beginnings {
    channels: Vec<Beginning>,
}

/// The lists of all orders on one channel.
struct Beginning {
    /// What all of them begin with.
    common: Vec<Message>,
    /// The longest of those that are beginnings of one another, and its order.
    longest: Vec<Message>,
    order: u64,
    /// The earliest place at which two lists differ.
    parting: Option<Parting>,
}

/// A place at which two lists differ: after how many messages, and what comes next in which order.
struct Parting {
    after: usize,
    next: [(Message, u64); 2],
}

impl Beginnings {
    /// Adds the lists of an order: 0 is the desk order.
    pub fn add(&mut self, order: u64, lists: &[Vec<Message>]) {
        if self.channels.is_empty() {
            let first = lists.iter().map(|list| Beginning::of(order, list));
            self.channels = first.collect();
        }
        for (channel, list) in self.channels.iter_mut().zip(lists) {
            channel.add(order, list);
        }
    }

    /// Whether the table has no channel to the host.
    pub fn are_none(&self) -> bool {
        self.channels.is_empty()
    }

    /// Whether on some channel two lists are not beginnings of one another.
    pub fn part(&self) -> bool {
        self.channels.iter().any(|one| one.parting.is_some())
    }

    /// The words about each channel.
    pub fn words(&self, program: &Program) -> String {
        let first = match (self.are_none(), self.part()) {
            (true, _) => "the table has no channel to the host, so there is nothing to compare",
            (_, true) => "what they gave to the host differs:",
            (_, false) => "what they gave to the host agrees as far as each has come:",
        };
        let mut text = format!("{first}\n");
        for (row, channel) in program.output_channels().zip(&self.channels) {
            let name = program.sort_and_name(row);
            text += &format!("  {name} to the host: {}\n", channel.words());
        }
        text
    }
}

impl Beginning {
    /// The list of one order alone.
    fn of(order: u64, list: &[Message]) -> Beginning {
        Beginning {
            common: list.to_vec(),
            longest: list.to_vec(),
            order,
            parting: None,
        }
    }

    /// Adds the list of an order.
    fn add(&mut self, order: u64, list: &[Message]) {
        self.common.truncate(equal_messages(&self.common, list));
        let equal = equal_messages(&self.longest, list);
        if equal == list.len() {
            return;
        }
        if equal == self.longest.len() {
            self.longest = list.to_vec();
            self.order = order;
        } else if self
            .parting
            .as_ref()
            .is_none_or(|known| equal < known.after)
        {
            self.parting = Some(Parting {
                after: equal,
                next: [(self.longest[equal], self.order), (list[equal], order)],
            });
        }
    }

    /// The words about the channel.
    fn words(&self) -> String {
        let common = match self.common.as_slice() {
            [] => "some have nothing yet".to_string(),
            common => format!("all begin with {}", shown_words(common)),
        };
        match &self.parting {
            Some(parting) if parting.after == 0 => parting.words(),
            Some(parting) => format!("{common}; {}", parting.words()),
            None if self.longest.is_empty() => "none has anything yet".to_string(),
            None if self.common == self.longest => {
                format!("all have {}", shown_words(&self.common))
            }
            None => {
                let furthest = count_words(self.longest.len());
                format!("{common}; the order that is furthest has {furthest}")
            }
        }
    }
}

impl Parting {
    /// Where the lists part, and what comes next in two orders.
    fn words(&self) -> String {
        let place = match self.after {
            0 => "at the first message".to_string(),
            after => format!("after {}", count_words(after)),
        };
        let [one, other] = self.next.map(|(message, order)| {
            format!("{} in {}", message_words(&message), order_words(order))
        });
        format!("they part {place}: {one}, {other}")
    }
}

/// How many messages two lists have in common before they differ or one of them ends.
fn equal_messages(one: &[Message], other: &[Message]) -> usize {
    let pairs = one.iter().zip(other);
    pairs.take_while(|(one, other)| one == other).count()
}

/// So many messages.
fn count_words(count: usize) -> String {
    let messages = if count == 1 { "message" } else { "messages" };
    format!("{count} {messages}")
}

/// A list, of a long one the first messages.
fn shown_words(list: &[Message]) -> String {
    let more = list.len().saturating_sub(SHOWN);
    let shown = list_words(&list[..list.len() - more]);
    match more {
        0 => shown,
        _ => format!("{shown} and {more} more"),
    }
}

/// A message.
fn message_words(message: &Message) -> String {
    message.map_or("absent".to_string(), |value| value.to_string())
}

/// A list.
pub fn list_words(list: &[Message]) -> String {
    let words: Vec<String> = list.iter().map(message_words).collect();
    match list {
        [] => "nothing".to_string(),
        _ => words.join(" "),
    }
}

/// The name of an order.
pub fn order_words(order: u64) -> String {
    match order {
        0 => "the desk order".to_string(),
        trial => format!("random order {trial}"),
    }
}

#[cfg(test)]
mod tests {
    use super::*;

    /// The words about one channel after these lists, the first of them of the desk order.
    fn words(lists: &[&[Message]]) -> String {
        let mut beginnings = Beginnings::default();
        for (order, list) in (0..).zip(lists) {
            beginnings.add(order, &[list.to_vec()]);
        }
        beginnings.channels[0].words()
    }

    const ABSENT: Message = None;

    #[test]
    fn lists_that_agree() {
        let [one, two, three] = [Some(1), Some(2), Some(3)];
        assert_eq!(words(&[&[], &[]]), "none has anything yet");
        assert_eq!(words(&[&[one, two], &[one, two]]), "all have 1 2");
        let furthest = "some have nothing yet; the order that is furthest has 1 message";
        assert_eq!(words(&[&[one], &[]]), furthest);
        assert_eq!(words(&[&[], &[one]]), furthest);
        let furthest = "all begin with 1; the order that is furthest has 3 messages";
        assert_eq!(words(&[&[one, two], &[one], &[one, two, three]]), furthest);
        assert_eq!(words(&[&[one, two, three], &[one, two], &[one]]), furthest);
    }

    #[test]
    fn absences_are_messages() {
        let [zero, one] = [Some(0), Some(1)];
        let all = "all begin with 1 absent; the order that is furthest has 3 messages";
        assert_eq!(words(&[&[one, ABSENT], &[one, ABSENT, ABSENT]]), all);
        let part = "all begin with 1; they part after 1 message: absent in the desk order, \
            0 in random order 1";
        assert_eq!(words(&[&[one, ABSENT], &[one, zero]]), part);
        let part = "they part at the first message: absent in the desk order, 1 in random order 2";
        assert_eq!(words(&[&[ABSENT, one], &[], &[one]]), part);
    }

    #[test]
    fn the_earliest_parting_is_told() {
        let [one, two, three, four] = [Some(1), Some(2), Some(3), Some(4)];
        let part = "all begin with 1 2; they part after 2 messages: 3 in the desk order, \
            4 in random order 2";
        let lists: [&[Message]; 4] = [
            &[one, two, three],
            &[one, two],
            &[one, two, four],
            &[one, two, one],
        ];
        assert_eq!(words(&lists), part);
        let part = "all begin with 1; they part after 1 message: 2 in the desk order, \
            4 in random order 2";
        let lists: [&[Message]; 3] = [&[one, two, three], &[one, two, four], &[one, four]];
        assert_eq!(words(&lists), part);
        let lists: [&[Message]; 3] = [&[one, two, three], &[one, one], &[one, two, four]];
        assert_eq!(
            words(&lists),
            part.replace("4 in random order 2", "1 in random order 1")
        );
        let part = "some have nothing yet; they part after 1 message: 2 in random order 1, \
            3 in random order 2";
        let lists: [&[Message]; 4] = [&[one], &[one, two], &[one, three], &[]];
        assert_eq!(words(&lists), part);
    }

    #[test]
    fn long_lists_are_cut() {
        let list: Vec<Message> = (0..20).map(Some).collect();
        let all = "all have 0 1 2 3 4 5 6 7 8 9 10 11 12 13 14 15 and 4 more";
        assert_eq!(words(&[&list, &list]), all);
        let all = "all have 0 1 2 3 4 5 6 7 8 9 10 11 12 13 14 15";
        assert_eq!(words(&[&list[..16], &list[..16]]), all);
    }

    #[test]
    fn channels_are_kept_apart() {
        let mut beginnings = Beginnings::default();
        beginnings.add(0, &[vec![Some(1)], vec![]]);
        beginnings.add(1, &[vec![], vec![Some(2)]]);
        assert!(!beginnings.part() && !beginnings.are_none());
        beginnings.add(2, &[vec![Some(2)], vec![Some(2)]]);
        assert!(beginnings.part());
    }
}
