// STAND-IN for the library `saturating`: as much of it as the given files use.

/// A number whose sums stop at its type's bounds.
#[derive(Debug, Clone, Copy, PartialEq, Eq)]
pub struct Saturating<T>(pub T);

impl std::ops::AddAssign for Saturating<usize> {
    fn add_assign(&mut self, other: Self) {
        self.0 = self.0.saturating_add(other.0);
    }
}
