//! Damages every byte of several sound windows and holds the verdict to the model's.
mod model;
mod windows;

extern "C" {
    fn probe_sound(memory: *const u8, length: usize) -> bool;
}

fn verdict(m: &[u8]) -> bool {
    // The function reads the lent bytes alone.
    unsafe { probe_sound(m.as_ptr(), m.len()) }
}

/// Each byte gets each damage; how many windows stay sound.
fn damaged(name: &str, w: &model::Window, damages: &[fn(u8) -> u8]) {
    let mut m = model::bytes(w);
    assert!(model::sound(&m), "{name}: the model refuses it");
    assert!(verdict(&m), "{name}: refused");
    let (mut tried, mut sound) = (0, 0);
    for at in 0..m.len() {
        let kept = m[at];
        for damage in damages {
            m[at] = damage(kept);
            let expected = model::sound(&m);
            assert_eq!(verdict(&m), expected, "{name}: byte {at} {kept} to {}", m[at]);
            tried += 1;
            sound += expected as u32;
        }
        m[at] = kept;
    }
    assert!(sound < tried, "{name}: no damage was seen");
    println!("{name}: {tried} damages, {sound} of them sound");
}

/// Each permit is taken away in turn; so many of them are needed.
fn permits_needed(name: &str, w: &model::Window, due: usize) {
    let needed = |place: &usize| {
        let mut fewer = w.clone();
        fewer.permits.remove(*place);
        let m = model::bytes(&fewer);
        let expected = model::sound(&m);
        assert_eq!(verdict(&m), expected, "{name}: without permit {place}");
        !expected
    };
    assert_eq!((0..w.permits.len()).filter(needed).count(), due, "{name}: permits that are needed");
}

fn main() {
    let bits: [fn(u8) -> u8; 8] =
        [|b| b ^ 1, |b| b ^ 2, |b| b ^ 4, |b| b ^ 8, |b| b ^ 16, |b| b ^ 32, |b| b ^ 64, |b| b ^ 128];
    damaged("fresh", &windows::fresh(1), &bits);
    damaged("typical", &windows::typical(), &bits);
    damaged("contested", &windows::contested(), &bits);
    damaged("crowded", &windows::crowded(), &bits);
    damaged("tied", &windows::tied(), &bits);
    damaged("waiting", &windows::waiting(), &bits);
    permits_needed("contested", &windows::contested(), 4);
    permits_needed("crowded", &windows::crowded(), 19);
    use windows::{all_lines, all_locks, all_permits, all_ties, full};
    for w in [full(), all_locks(), all_permits(), all_ties(), all_lines()] {
        let m = model::bytes(&w);
        assert!(model::sound(&m) && verdict(&m));
    }
    let m = model::bytes(&windows::typical());
    assert!(!verdict(&m[..m.len() - 1]) && !verdict(&[]), "memory shorter than a window");
    let longer: Vec<u8> = m.iter().copied().chain([255; 100]).collect();
    assert!(verdict(&longer), "bytes past the window play no part");
}
