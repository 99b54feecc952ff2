
/// Ways in to what spk.rs keeps private; appended to its text by setup.sh.
pub mod reach {
    use super::*;

    pub fn cheby3(cx: &[f64], cy: &[f64], cz: &[f64], s: f64) -> ([f64; 3], [f64; 3]) {
        cheby3_val_and_deriv(cx, cy, cz, s)
    }

    pub fn cheby3_value(cx: &[f64], cy: &[f64], cz: &[f64], s: f64) -> [f64; 3] {
        cheby3_val_only(cx, cy, cz, s)
    }

    pub fn lagrange(xs: &[f64], ys: &[f64], x: f64) -> f64 {
        lagrange_eval(xs, ys, x)
    }

    pub fn hermite(xs: &[f64], ys: &[f64], dys: &[f64], x: f64) -> (f64, f64) {
        hermite_eval(xs, ys, dys, x)
    }

    pub fn window(
        file: &DafFile,
        epochs_start: u32,
        n: usize,
        window: usize,
        et: f64,
    ) -> Result<(usize, usize), SpkError> {
        pick_window(file, epochs_start, n, window, et)
    }

    /// One segment of an opened kernel evaluated alone, covering or not.
    pub fn evaluate(file: &SpkFile, segment: usize, et: f64) -> Result<[f64; 6], SpkError> {
        SpkFile::eval_segment(&file.segments[segment], et)
    }

    /// The mark of a segment: whether the memory may hold it.
    pub fn marked(file: &SpkFile, segment: usize) -> bool {
        file.cacheable[segment]
    }

    /// The number that the memory holds, if any.
    pub fn remembered(file: &SpkFile) -> Option<usize> {
        let kept = file.last_segment.load(Ordering::Relaxed);
        (kept != MRU_EMPTY).then(|| kept)
    }

    /// The memory emptied, as after an opening.
    pub fn forget(file: &SpkFile) {
        file.last_segment.store(MRU_EMPTY, Ordering::Relaxed);
    }

    /// The way of a question, which the given functions don't tell.
    pub enum Way {
        Same,
        Forward(usize),
        Reversed(usize),
        Chained,
    }

    /// The last segment of a pair that covers the epoch, from the given index.
    fn direct(file: &SpkFile, target: i32, center: i32, et: f64) -> Option<usize> {
        let covers = |i: &usize| et >= file.segments[*i].start_et && et <= file.segments[*i].end_et;
        file.index.get(&(target, center))?.iter().copied().rev().find(covers)
    }

    /// The way that `state` takes, by its own tests in its order.
    pub fn way(file: &SpkFile, target: i32, center: i32, et: f64) -> Way {
        if target == center {
            return Way::Same;
        }
        match (direct(file, target, center, et), direct(file, center, target, et)) {
            (Some(i), _) => Way::Forward(i),
            (None, Some(i)) => Way::Reversed(i),
            (None, None) => Way::Chained,
        }
    }

    /// The segment whose evaluation ends a question with an error.
    pub fn blamed(file: &SpkFile, target: i32, center: i32, et: f64) -> Option<usize> {
        match way(file, target, center, et) {
            Way::Same => None,
            Way::Forward(i) | Way::Reversed(i) => Some(i),
            Way::Chained => [target, center].iter().find_map(|body| blamed_on_chain(file, *body, et)),
        }
    }

    /// The first segment on a body's way to body 0 whose evaluation is an error.
    fn blamed_on_chain(file: &SpkFile, body: i32, et: f64) -> Option<usize> {
        let mut current = body;
        for _ in 0..if body == 0 { 0 } else { 32 } {
            let mut next = None;
            for (i, seg) in file.segments.iter().enumerate() {
                if seg.target != current || et < seg.start_et || et > seg.end_et {
                    continue;
                }
                if SpkFile::eval_segment(seg, et).is_err() {
                    return Some(i);
                }
                if seg.center == 0 {
                    return None;
                }
                next = next.or(Some(seg.center));
            }
            current = next.filter(|c| *c != body)?;
        }
        None
    }
}
