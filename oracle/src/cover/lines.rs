//! Skips and whole lines, told apart before they are done.

use super::situation::Situation as S;
use super::Cover;
use crate::screen::Screen;

impl Cover {
    pub fn skip_to_line(&mut self, parameters: &[u8], screen: &Screen) {
        let round = parameters.iter().any(|&y| y >= screen.size.n);
        self.count_if(round, S::SkipLineRound);
        self.count_if(!round, S::SkipLine);
    }

    pub fn skip_to_char(&mut self, parameters: &[u8], screen: &Screen) {
        let &[x] = parameters else { return };
        let past = x >= screen.size.m;
        let far = x / screen.size.n;
        let round = u16::from(screen.cursor.y.0) + u16::from(far) >= screen.size.n.into();
        self.count_if(!past, S::SkipChar);
        self.count_if(!past && far > 0, S::SkipCharFar);
        self.count_if(past && !round, S::SkipCharOn);
        self.count_if(past && round, S::SkipCharRound);
    }

    pub fn lines(&mut self, screen: &Screen) {
        let (at, line, cells) = (screen.at(), screen.line(), screen.cells());
        let any = |mut cells: std::ops::Range<usize>| cells.any(|cell| screen.guarded(cell));
        let (above, before) = (any(0..line.start), any(line.start..at));
        let (after, below) = (any(at..line.end), any(line.end..cells));
        let stopped = before || after || below;
        let many = line.end < cells;
        self.count_if(!stopped && many, S::LinesMoved);
        self.count_if(!stopped && !many, S::LinesLast);
        self.count_if(!stopped && above, S::LinesGuardAbove);
        self.count_if(before && !after && !below, S::LinesGuardBefore);
        self.count_if(below && !before && !after, S::LinesGuardBelow);
        self.count_if(screen.guarded(at), S::LinesGuardHere);
        let moved = &screen.attrs[line.start..];
        let differ = moved[usize::from(screen.size.m)..] != moved[..moved.len() - line.len()];
        self.count_if(!stopped && differ, S::LinesAttributes);
        let mut cells = line.start..cells;
        let protected = cells.any(|cell| screen.protected(cell));
        self.count_if(protected && screen.suppressed, S::LinesSuppressed);
    }
}
