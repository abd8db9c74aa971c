// Appended by oracle/build: the fields are private.
impl Murm {
    /// A width's table, completed depth and whether it is saturated.
    pub(super) fn width(&self, width: usize) -> (&WidthTable, usize, bool) {
        (
            &self.entries[width],
            self.completed_depth[width],
            self.saturated[width],
        )
    }
}
