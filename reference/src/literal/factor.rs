//! Factors and what is said of two of them (Großmann, section 2.1).

/// A set of plots; plot u, from 0, is bit u % 64 of word u / 64.
#[derive(Clone, Copy, Debug, Default, PartialEq, Eq)]
pub struct Plots([u64; 4]);

impl Plots {
    pub fn insert(&mut self, plot: usize) {
        self.0[plot / 64] |= 1 << (plot % 64);
    }

    pub fn intersection(&self, other: &Plots) -> Plots {
        Plots(std::array::from_fn(|w| self.0[w] & other.0[w]))
    }

    pub fn union(&self, other: &Plots) -> Plots {
        Plots(std::array::from_fn(|w| self.0[w] | other.0[w]))
    }

    pub fn without(&self, other: &Plots) -> Plots {
        Plots(std::array::from_fn(|w| self.0[w] & !other.0[w]))
    }

    pub fn is_inside(&self, other: &Plots) -> bool {
        self.intersection(other) == *self
    }

    pub fn size(&self) -> usize {
        self.0.iter().map(|word| word.count_ones() as usize).sum()
    }

    /// The plots in ascending order.
    pub fn plots(&self) -> impl Iterator<Item = usize> {
        let mut rest = *self;
        std::iter::from_fn(move || {
            let w = rest.0.iter().position(|&word| word != 0)?;
            let bit = rest.0[w].trailing_zeros() as usize;
            rest.0[w] &= rest.0[w] - 1;
            Some(64 * w + bit)
        })
    }
}

/// "A factor is any division of the plots into classes, none empty." The classes stand in the order of their first plots,
/// so two factors are equal here exactly when they are equivalent.
#[derive(Clone, Debug, PartialEq, Eq)]
pub struct Factor {
    classes: Vec<Plots>,
    /// For each plot the index of its class.
    class_of: Vec<usize>,
}

impl Factor {
    /// "A column makes one: plots share a class when they share a level."
    pub fn of_labels<L: PartialEq>(labels: &[L]) -> Factor {
        let mut classes: Vec<Plots> = Vec::new();
        let mut class_of: Vec<usize> = Vec::new();
        for (plot, label) in labels.iter().enumerate() {
            let sharing = (0..plot).find(|&earlier| labels[earlier] == *label);
            let class = sharing.map_or(classes.len(), |earlier| class_of[earlier]);
            if class == classes.len() {
                classes.push(Plots::default());
            }
            classes[class].insert(plot);
            class_of.push(class);
        }
        Factor { classes, class_of }
    }

    /// "U, the universal factor, has one class".
    pub fn universal(plots: usize) -> Factor {
        Factor::of_labels(&vec![0; plots])
    }

    /// "E, the equality factor, has N."
    pub fn equality(plots: usize) -> Factor {
        Factor::of_labels(&(0..plots).collect::<Vec<usize>>())
    }

    pub fn plots(&self) -> usize {
        self.class_of.len()
    }

    pub fn number_of_classes(&self) -> usize {
        self.classes.len()
    }

    /// "They are numbered by first appearance from plot 1: the first plot has 1, and a new class takes the next number."
    pub fn numbers(&self) -> Vec<u8> {
        self.class_of.iter().map(|&class| (class + 1) as u8).collect()
    }

    /// "F is finer than or equivalent to G when plots sharing an F-class always share a G-class."
    pub fn is_finer_or_equivalent(&self, other: &Factor) -> bool {
        self.classes.iter().all(|a| other.classes.iter().any(|b| a.is_inside(b)))
    }

    /// "F and G are equivalent when this holds both ways."
    pub fn is_equivalent(&self, other: &Factor) -> bool {
        self.is_finer_or_equivalent(other) && other.is_finer_or_equivalent(self)
    }

    /// Finer than the other and not equivalent to it; then the other is strictly coarser.
    pub fn is_strictly_finer(&self, other: &Factor) -> bool {
        self.is_finer_or_equivalent(other) && !other.is_finer_or_equivalent(self)
    }

    /// "In the infimum two plots share a class exactly when they do in both factors": its classes are the intersections.
    pub fn infimum(&self, other: &Factor) -> Factor {
        let mut label = vec![0; self.plots()];
        let mut next = 0;
        for a in &self.classes {
            for b in &other.classes {
                for plot in a.intersection(b).plots() {
                    label[plot] = next;
                }
                next += 1;
            }
        }
        Factor::of_labels(&label)
    }

    /// "In the supremum they share one exactly when a chain of plots joins them, each step within an F-class or a G-class."
    pub fn supremum(&self, other: &Factor) -> Factor {
        let mut label = vec![usize::MAX; self.plots()];
        for start in 0..self.plots() {
            if label[start] == usize::MAX {
                for plot in self.joined_by_chains(other, start).plots() {
                    label[plot] = start;
                }
            }
        }
        Factor::of_labels(&label)
    }

    /// The plots that a chain joins to the given one: from each plot reached, steps to all others of its two classes.
    fn joined_by_chains(&self, other: &Factor, start: usize) -> Plots {
        let mut reached = Plots::default();
        reached.insert(start);
        let mut ends = vec![start];
        while let Some(plot) = ends.pop() {
            let step = self.classes[self.class_of[plot]].union(&other.classes[other.class_of[plot]]);
            ends.extend(step.without(&reached).plots());
            reached = reached.union(&step);
        }
        reached
    }

    /// "F and G are orthogonal when for each class K of the supremum, and each F-class A and G-class B inside K, the size of
    /// A∩B × size of K = size of A × size of B."
    pub fn is_orthogonal(&self, other: &Factor) -> bool {
        self.supremum(other).classes.iter().all(|k| {
            let inside = |factor: &Factor| factor.classes.iter().filter(|c| c.is_inside(k)).copied().collect::<Vec<_>>();
            let (in_first, in_second) = (inside(self), inside(other));
            in_first.iter().all(|a| {
                in_second.iter().all(|b| a.intersection(b).size() * k.size() == a.size() * b.size())
            })
        })
    }

    /// "Has every plot member classes of one size?" (question 9, of one member)
    pub fn has_classes_of_one_size(&self) -> bool {
        self.classes.iter().all(|class| class.size() == self.classes[0].size())
    }
}

#[cfg(test)]
mod tests {
    use super::Factor;

    fn factor(labels: &[u32]) -> Factor {
        Factor::of_labels(labels)
    }

    #[test]
    fn labels_are_only_labels() {
        assert_eq!(factor(&[7, 7, 3, 9]).numbers(), [1, 1, 2, 3]);
        assert!(factor(&[7, 7, 3, 9]).is_equivalent(&factor(&[1, 1, 5, 2])));
        assert_eq!(Factor::universal(1), Factor::equality(1));
    }

    #[test]
    fn chains_of_several_steps_join_plots() {
        let f = factor(&[1, 1, 2, 2, 3, 3]);
        let g = factor(&[1, 2, 2, 3, 3, 4]);
        assert_eq!(f.supremum(&g), Factor::universal(6));
        assert_eq!(f.infimum(&g), Factor::equality(6));
    }

    #[test]
    fn orthogonality_is_judged_within_the_classes_of_the_supremum() {
        let f = factor(&[1, 1, 2, 2, 3, 3, 4, 4]);
        let g = factor(&[1, 2, 1, 2, 3, 4, 3, 4]);
        assert_eq!(f.supremum(&g), factor(&[1, 1, 1, 1, 2, 2, 2, 2]));
        assert!(f.is_orthogonal(&g));
        assert!(!factor(&[1, 1, 2, 2, 3, 3]).is_orthogonal(&factor(&[1, 2, 1, 3, 2, 3])));
        assert!(factor(&[1, 1, 1, 2]).is_orthogonal(&Factor::universal(4)));
    }
}
