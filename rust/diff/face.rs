// ptb's calls by their C names (include/ptb.h), on a pool whose every slice, the answer too, is lent under guard. With `--cfg alone` the model itself stands in
// their place: then it is the model that is compared with the oracle, without a static library.
use crate::lent::Lent;
use crate::model::{Answer, Handle, Map, Modify, Pool, UNTOUCHED};

#[cfg(not(alone))]
#[path = "../ptb/src/names.rs"]
mod names;

#[derive(Clone)]
pub struct Ours {
    pub words: Lent<u64>,
    pub ledger: Lent<u32>,
    pub handle: Handle,
    answer: Lent<u64>,
    // As for the model's pools, where the model stands in.
    #[cfg_attr(not(alone), allow(dead_code))]
    trusted: bool,
}

impl Ours {
    pub fn of(pool: &Pool) -> Ours {
        Ours { words: Lent::new(&pool.words), ledger: Lent::new(&pool.ledger), handle: pool.handle, answer: Lent::new(&UNTOUCHED), trusted: pool.trusted }
    }

    // Takes over words and ledger of a pool of the same lengths.
    pub fn load(&mut self, words: &[u64], ledger: &[u32]) {
        self.words.copy_from_slice(words);
        self.ledger.copy_from_slice(ledger);
    }

    pub fn is_guarded(&self) -> bool {
        self.words.is_guarded() && self.ledger.is_guarded() && self.answer.is_guarded()
    }
}

#[cfg(not(alone))]
mod calls {
    use super::{names::*, Answer, Lent, Map, Modify, Ours, UNTOUCHED};

    // The call with the pool's arguments in front of its own and the answer behind them.
    macro_rules! called {
        ($name:ident, $pool:expr, $words:ident $(, $argument:expr)*) => {{
            $pool.answer.copy_from_slice(&UNTOUCHED);
            let (words, words_len, ledger, ledger_len) = ($pool.words.$words(), $pool.words.len(), $pool.ledger.$words(), $pool.ledger.len());
            let handle = $pool.handle;
            let number = unsafe { $name(words, words_len, ledger, ledger_len, handle.base, handle.level, handle.range $(, $argument)*, $pool.answer.as_mut_ptr()) };
            (number, [$pool.answer[0], $pool.answer[1], $pool.answer[2], $pool.answer[3]])
        }};
    }

    pub fn make(pool: &mut Ours) -> Answer {
        called!(ptb_make, pool, as_mut_ptr)
    }

    pub fn check(pool: &mut Ours) -> Answer {
        called!(ptb_check, pool, as_ptr)
    }

    pub fn look_up(pool: &mut Ours, va: u64) -> Answer {
        called!(ptb_look_up, pool, as_ptr, va)
    }

    pub fn list(pool: &mut Ours, start: u64, end: u64, lines: &mut Lent<u64>) -> Answer {
        called!(ptb_list, pool, as_ptr, start, end, lines.as_mut_ptr(), lines.len())
    }

    pub fn map(pool: &mut Ours, map: &Map) -> Answer {
        called!(ptb_map, pool, as_mut_ptr, map.start, map.end, map.frame, map.flags, map.constraints)
    }

    pub fn image(pool: &mut Ours, table: u64, page: &mut Lent<u8>) -> Answer {
        called!(ptb_image, pool, as_ptr, table, page.as_mut_ptr(), page.len())
    }

    pub fn modify(pool: &mut Ours, modify: &Modify, list: &mut Lent<u64>) -> Answer {
        called!(ptb_modify, pool, as_mut_ptr, modify.start, modify.end, modify.set, modify.clear, modify.live as u64, list.as_mut_ptr(), list.len())
    }

    pub fn compact(pool: &mut Ours) -> Answer {
        called!(ptb_compact, pool, as_mut_ptr)
    }
}

#[cfg(alone)]
mod calls {
    use super::{Answer, Lent, Map, Modify, Ours, Pool};

    fn pool(ours: &Ours) -> Pool {
        Pool { trusted: ours.trusted, ..Pool::of(ours.words.to_vec(), ours.ledger.to_vec(), ours.handle) }
    }

    // A call of the model's that may change words and ledger.
    fn changed(ours: &mut Ours, call: impl FnOnce(&mut Pool) -> Answer) -> Answer {
        let mut pool = pool(ours);
        let answer = call(&mut pool);
        ours.load(&pool.words, &pool.ledger);
        ours.trusted = pool.trusted;
        answer
    }

    pub fn make(ours: &mut Ours) -> Answer {
        changed(ours, |pool| pool.remake())
    }

    pub fn check(ours: &mut Ours) -> Answer {
        pool(ours).check()
    }

    pub fn look_up(ours: &mut Ours, va: u64) -> Answer {
        pool(ours).look_up(va)
    }

    pub fn list(ours: &mut Ours, start: u64, end: u64, lines: &mut Lent<u64>) -> Answer {
        let (answer, written, _) = pool(ours).list(start, end, |_| lines.len() as u64);
        lines[..written.len()].copy_from_slice(&written);
        answer
    }

    pub fn map(ours: &mut Ours, map: &Map) -> Answer {
        changed(ours, |pool| pool.map(map))
    }

    pub fn image(ours: &mut Ours, table: u64, page: &mut Lent<u8>) -> Answer {
        let (answer, written) = pool(ours).image(table, page.len());
        page[..written.len()].copy_from_slice(&written);
        answer
    }

    pub fn modify(ours: &mut Ours, modify: &Modify, list: &mut Lent<u64>) -> Answer {
        changed(ours, |pool| {
            let (answer, written, _) = pool.modify(modify, |_| list.len() as u64);
            list[..written.len()].copy_from_slice(&written);
            answer
        })
    }

    pub fn compact(ours: &mut Ours) -> Answer {
        changed(ours, |pool| pool.compact())
    }
}

pub use calls::*;
