//! The lines of a text by their levels: where each stands, and the place of refusal 12.
//!
//! A line is taken if some further lines, or none, could make a text of the lines so far. So the
//! first line that is not taken is the first that no further lines could mend.

use super::lines::{read_line, TextLine};
use super::names::Declaration;
use super::phrases::expression;
use super::sentences::{declaration, guard, process, Beneath};
use super::tree::{Field, Tree, NONE, ZERO};
use super::TEXT_BYTES;
use crate::kinds::{BLOCK, CHOICE, MEMBER, OPTION, VARIABLE};
use crate::refusal::Refusal;
use crate::table::lines;

/// Where a row that comes is referred to: this field of a node, or nowhere for the root.
#[derive(Clone, Copy)]
enum Hole {
    Root,
    Field(usize, usize),
}

/// A list at a level that further lines may go on with, and where its next link belongs.
#[derive(Clone, Copy)]
enum List {
    Members(Hole),
    Choices(Hole),
    Options(Hole),
}

/// What may still stand at a level.
struct Level {
    /// Where a process belongs that must come before anything else at this level or above it.
    wanted: Option<Hole>,
    list: Option<List>,
}

impl Level {
    /// A level of one process.
    fn of_one(hole: Hole) -> Level {
        Level {
            wanted: Some(hole),
            list: None,
        }
    }

    /// A level of any number of processes, choices or options.
    fn of_many(list: List) -> Level {
        Level {
            wanted: None,
            list: Some(list),
        }
    }
}

/// The lines read so far: what they say, and what may stand at each level. The first level is always
/// there; a level that is not the last wants no process.
struct Outline<'t> {
    tree: Tree<'t>,
    root: Option<usize>,
    levels: Vec<Level>,
}

/// A whole text: its declarations and uses of names, and the tree of its process.
pub struct Text<'t> {
    pub tree: Tree<'t>,
    pub root: usize,
}

/// What a text says, or refusal 12 with the first line that no further lines could mend.
pub fn outline(bytes: &[u8]) -> Result<Text<'_>, Refusal> {
    if bytes.len() > TEXT_BYTES {
        return Err(Refusal::new(12, 0));
    }
    let mut outline = Outline {
        tree: Tree::default(),
        root: None,
        levels: vec![Level::of_one(Hole::Root)],
    };
    let mut count = 0;
    for line in lines(bytes) {
        count += 1;
        let line = read_line(count, &line);
        let taken = line.and_then(|line| outline.take(&line));
        taken.ok_or(Refusal::new(12, count))?;
    }
    outline.whole().ok_or(Refusal::new(12, count + 1))
}

impl<'t> Outline<'t> {
    /// Takes a line; `None` if it cannot stand here.
    fn take(&mut self, line: &TextLine<'t>) -> Option<()> {
        self.tree.line = line.number;
        let declaration = declaration(line.number, &line.tokens);
        match (self.root, line.level, declaration) {
            (None, 0, Some(declaration)) => {
                self.tree.declarations.push(declaration);
                Some(())
            }
            (_, _, declaration) => self.take_inside(line, declaration),
        }
    }

    /// Takes a line of the process: at its level comes what is wanted there, or the list goes on.
    fn take_inside(
        &mut self,
        line: &TextLine<'t>,
        declaration: Option<Declaration<'t>>,
    ) -> Option<()> {
        self.close_beneath(line.level)?;
        let level = self.levels.last_mut()?;
        match (level.wanted.take(), level.list) {
            (Some(hole), _) => self.take_process(line, declaration, hole),
            (None, Some(List::Members(hole))) => {
                let member = self.link(hole, MEMBER, ZERO, List::Members);
                self.take_process(line, declaration, Hole::Field(member, 0))
            }
            (None, Some(List::Choices(hole))) => {
                let boolean = expression(&mut self.tree, &line.tokens)?;
                let choice = self.link(hole, CHOICE, Field::Node(boolean), List::Choices);
                self.open(Level::of_one(Hole::Field(choice, 0)))
            }
            (None, Some(List::Options(hole))) => {
                let guard = guard(&mut self.tree, &line.tokens)?;
                let option = self.link(hole, OPTION, Field::Node(guard), List::Options);
                self.open(Level::of_one(Hole::Field(option, 0)))
            }
            (None, None) => None,
        }
    }

    /// Closes the levels beneath this one; `None` if there is no such level, or one that is closed
    /// wants a process.
    fn close_beneath(&mut self, level: usize) -> Option<()> {
        let closes = level + 1 < self.levels.len();
        if closes && self.levels.last()?.wanted.is_some() {
            return None;
        }
        self.levels.truncate(level + 1);
        (self.levels.len() == level + 1).then_some(())
    }

    /// Adds a member, choice or option to the list of the last level, whose next one follows it.
    fn link(&mut self, hole: Hole, kind: i32, third: Field, list: fn(Hole) -> List) -> usize {
        let link = self.tree.add(kind, [ZERO, NONE, third]);
        self.fill(hole, link);
        if let Some(level) = self.levels.last_mut() {
            level.list = Some(list(Hole::Field(link, 1)));
        }
        link
    }

    /// Takes a line where a process may stand: a process or its head, or the declaration of a block,
    /// after which the block's process is wanted at the same level.
    fn take_process(
        &mut self,
        line: &TextLine<'t>,
        declaration: Option<Declaration<'t>>,
        hole: Hole,
    ) -> Option<()> {
        if let Some(declaration) = declaration {
            let block = self.block(declaration)?;
            self.fill(hole, block);
            self.levels.last_mut()?.wanted = Some(Hole::Field(block, 1));
            return Some(());
        }
        let (node, beneath) = process(&mut self.tree, &line.tokens)?;
        self.fill(hole, node);
        let first = Hole::Field(node, 0);
        match beneath {
            Beneath::Nothing => Some(()),
            Beneath::Members => self.open(Level::of_many(List::Members(first))),
            Beneath::Choices => self.open(Level::of_many(List::Choices(first))),
            Beneath::Options => self.open(Level::of_many(List::Options(first))),
            Beneath::Body => self.open(Level::of_one(Hole::Field(node, 1))),
        }
    }

    /// Opens the level beneath the line that is taken.
    fn open(&mut self, level: Level) -> Option<()> {
        self.levels.push(level);
        Some(())
    }

    /// The node of a block and its declaration, which must be a variable's. Blocks come after all
    /// other declarations, so that the place among them is the variable's row.
    fn block(&mut self, declaration: Declaration<'t>) -> Option<usize> {
        if declaration.row.kind != VARIABLE {
            return None;
        }
        let row = i32::try_from(self.tree.declarations.len()).ok()?;
        self.tree.declarations.push(declaration);
        Some(self.tree.add(BLOCK, [Field::Number(row), ZERO, ZERO]))
    }

    /// Puts a node where it belongs.
    fn fill(&mut self, hole: Hole, node: usize) {
        match hole {
            Hole::Root => self.root = Some(node),
            Hole::Field(above, field) => self.tree.nodes[above].fields[field] = Field::Node(node),
        }
    }

    /// The text, if no level wants a process.
    fn whole(self) -> Option<Text<'t>> {
        if self.levels.last()?.wanted.is_some() {
            return None;
        }
        Some(Text {
            tree: self.tree,
            root: self.root?,
        })
    }
}
