// Included in the module of the noting copy only.

impl SeekBuilder {
    fn placed(&self) -> crate::noted::Placed {
        let (range, guide) = (self.range.is_some(), self.guide.is_some());
        let (parts, residuals) = (self.parts.len(), self.residuals.len());
        [parts, range.into(), guide.into(), residuals]
    }

    /// The next entry is made by this node.
    fn made_by(&self, node: NodeId) {
        crate::noted::making(node, self.placed());
    }

    fn ended(&self) {
        crate::noted::ended(self.placed());
    }
}

/// A whole key's field is of the level's own node, but of a Const slot it is of
/// the field's own.
fn of_whole_key(level: NodeId, field: &Slot) -> NodeId {
    match field {
        Slot::Const(own) => *own,
        _ => level,
    }
}
