//! Places for the labels of points: none covers another, a mark or a line. A point without such a place has no label.

/// A part of the picture, by its edges.
#[derive(Clone, Copy, Debug, PartialEq)]
pub struct Area {
    pub left: f64,
    pub top: f64,
    pub right: f64,
    pub bottom: f64,
}

impl Area {
    pub fn new(left: f64, top: f64, right: f64, bottom: f64) -> Area {
        Area { left, top, right, bottom }
    }

    /// Around two points in any order, so many pixels wider.
    pub fn around(a: (f64, f64), b: (f64, f64), more: f64) -> Area {
        Area::new(a.0.min(b.0) - more, a.1.min(b.1) - more, a.0.max(b.0) + more, a.1.max(b.1) + more)
    }

    fn meets(&self, other: &Area) -> bool {
        self.left < other.right && other.left < self.right && self.top < other.bottom && other.top < self.bottom
    }

    fn lies_in(&self, other: &Area) -> bool {
        self.left >= other.left && self.top >= other.top && self.right <= other.right && self.bottom <= other.bottom
    }
}

/// What is taken of the room that labels may have.
pub struct Room {
    whole: Area,
    taken: Vec<Area>,
}

impl Room {
    pub fn new(whole: Area) -> Room {
        Room { whole, taken: Vec::new() }
    }

    pub fn take(&mut self, area: Area) {
        self.taken.push(area);
    }

    /// Takes a place of this size beside a mark, above it or below it.
    pub fn beside(&mut self, mark: &Area, width: f64, height: f64) -> Option<Area> {
        let middle = (mark.left + mark.right - width) / 2.0;
        let (above, below) = (mark.top - height, mark.bottom);
        let level = (mark.top + mark.bottom - height) / 2.0;
        let places = [
            (middle, above),
            (middle, below),
            (mark.right, level),
            (mark.left - width, level),
            (mark.right, above),
            (mark.left - width, above),
            (mark.right, below),
            (mark.left - width, below),
        ];
        let areas = places.map(|(left, top)| Area::new(left, top, left + width, top + height));
        let free = areas.into_iter().find(|area| self.is_free(area))?;
        self.take(free);
        Some(free)
    }

    fn is_free(&self, area: &Area) -> bool {
        area.lies_in(&self.whole) && !self.taken.iter().any(|taken| taken.meets(area))
    }
}

#[cfg(test)]
mod tests {
    use super::*;

    #[test]
    fn labels_keep_off_each_other_and_stay_inside() {
        let mut room = Room::new(Area::new(0.0, 0.0, 100.0, 40.0));
        let mark = Area::new(48.0, 18.0, 52.0, 22.0);
        room.take(mark);
        let placed: Vec<Area> = (0..20).map_while(|_| room.beside(&mark, 30.0, 10.0)).collect();
        assert!(placed.len() >= 2, "{placed:?}");
        for (n, one) in placed.iter().enumerate() {
            assert!(one.lies_in(&room.whole) && !one.meets(&mark));
            assert!(placed[..n].iter().all(|other| !other.meets(one)));
        }
        assert_eq!(room.beside(&mark, 30.0, 10.0), None);
    }
}
