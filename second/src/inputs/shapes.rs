//! Pixel sets of many forms.

use super::random::Random;

/// A pixel set as rows of cells, the bottom row first.
pub type Shape = Vec<Vec<bool>>;

/// The box cells that satisfy a condition, in a tight box; one pixel if there are none.
pub fn draw(columns: usize, rows: usize, mut has: impl FnMut(usize, usize) -> bool) -> Shape {
    let mut shape: Shape = (0..rows)
        .map(|y| (0..columns).map(|x| has(x, y)).collect())
        .collect();
    let Some(top) = shape.iter().rposition(|row| row.contains(&true)) else {
        return full(1, 1);
    };
    shape.truncate(top + 1);
    let bottom = shape.iter().position(|row| row.contains(&true));
    shape.drain(..bottom.unwrap_or(0));
    let used = |x: &usize| shape.iter().any(|row| row[*x]);
    let left = (0..columns).find(used).unwrap_or(0);
    let right = (0..columns).rfind(used).unwrap_or(0);
    let cut = |row: &Vec<bool>| row[left..=right].to_vec();
    shape.iter().map(cut).collect()
}

/// A full rectangle.
pub fn full(columns: usize, rows: usize) -> Shape {
    vec![vec![true; columns]; rows]
}

/// A rectangle with a rectangular hole inside a border.
pub fn frame(columns: usize, rows: usize, border: usize) -> Shape {
    let inner = |at: usize, size: usize| at >= border && at + border < size;
    draw(columns, rows, |x, y| !(inner(x, columns) && inner(y, rows)))
}

/// Frames in one another with free cells between: holes and separate parts.
pub fn rings(columns: usize, rows: usize) -> Shape {
    let depth = |at: usize, size: usize| at.min(size - 1 - at);
    draw(columns, rows, |x, y| {
        depth(x, columns).min(depth(y, rows)) % 2 == 0
    })
}

/// Bars across the box with free cells between: separate parts.
pub fn bars(random: &mut Random, columns: usize, rows: usize) -> Shape {
    let pitch = random.between(2, 4);
    if random.chance(50) {
        draw(columns, rows, |x, _| x % pitch == 0)
    } else {
        draw(columns, rows, |_, y| y % pitch == 0)
    }
}

/// Four blocks in the corners of the box: separate parts with a wide gap.
pub fn corners(random: &mut Random, columns: usize, rows: usize) -> Shape {
    let side = random.between(1, 2);
    let near_edge = |at: usize, size: usize| at < side || at + side >= size;
    draw(columns, rows, |x, y| {
        near_edge(x, columns) && near_edge(y, rows)
    })
}

/// Teeth on a spine.
pub fn comb(random: &mut Random, columns: usize, rows: usize) -> Shape {
    let (spine, pitch) = (random.between(1, rows), random.between(2, 5));
    draw(columns, rows, |x, y| y < spine || x % pitch == 0)
}

/// An L shape.
pub fn angle(random: &mut Random, columns: usize, rows: usize) -> Shape {
    let (foot, stem) = (random.between(1, rows), random.between(1, columns));
    draw(columns, rows, |x, y| y < foot || x < stem)
}

/// A right triangle with its right angle in one of the four corners.
pub fn wedge(random: &mut Random, columns: usize, rows: usize) -> Shape {
    let (mirror_x, mirror_y) = (random.chance(50), random.chance(50));
    draw(columns, rows, |x, y| {
        let x = if mirror_x { columns - 1 - x } else { x };
        let y = if mirror_y { rows - 1 - y } else { y };
        x * rows + y * columns < columns * rows
    })
}

/// Each row is a stretch of its own: a ragged outline.
pub fn ragged(random: &mut Random, columns: usize, rows: usize) -> Shape {
    let mut stretch = |_| {
        let first = random.between(0, columns / 2);
        (first, random.between(first, columns - 1))
    };
    let stretches: Vec<(usize, usize)> = (0..rows).map(&mut stretch).collect();
    draw(columns, rows, |x, y| {
        (stretches[y].0..=stretches[y].1).contains(&x)
    })
}

/// Single pixels at random.
pub fn dust(random: &mut Random, columns: usize, rows: usize) -> Shape {
    let percent = random.between(10, 95);
    draw(columns, rows, |_, _| random.chance(percent))
}

/// A shape of any form in a box of at most the given size.
pub fn any(random: &mut Random, columns: usize, rows: usize) -> Shape {
    match random.between(0, 10) {
        0 | 1 => full(columns, rows),
        2 => frame(columns, rows, random.between(1, 3)),
        3 => rings(columns, rows),
        4 => bars(random, columns, rows),
        5 => corners(random, columns, rows),
        6 => comb(random, columns, rows),
        7 => angle(random, columns, rows),
        8 => wedge(random, columns, rows),
        9 => ragged(random, columns, rows),
        _ => dust(random, columns, rows),
    }
}
