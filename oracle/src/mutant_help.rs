// Included in the modules of mutants only.

impl Flattener<'_> {
    fn falling(&mut self, level: &mut SeekBuilder) -> &mut Self {
        level.building = false;
        self
    }

    fn refused(&mut self) -> &mut Self {
        crate::literal::meet();
        self
    }

    fn literal_unless(&mut self, opened: bool) -> &mut Self {
        if opened { self } else { self.refused() }
    }

    /// A constant, or a record that may be none.
    fn literal_without_bytes(&mut self, node: NodeId, ty: &PredicateTy) -> &mut Self {
        let bytes = self.constant(node, ty).is_some();
        self.literal_unless(bytes || !self.ast.is_constant(node))
    }

    fn not_opened(
        &mut self,
        _: NodeId,
        _: &PredicateTy,
        _: Address,
        _: &FieldPath,
        level: &mut SeekBuilder,
    ) {
        level.building = false;
    }
}

impl SeekBuilder {
    fn own_row_part(&mut self, path: &FieldPath, other: &FieldPath, own: Address) {
        if !self.building {
            return self.own_row(path, other, own);
        }
        self.parts.push(SeekKeyPart::RegisterField {
            address: own,
            path: other.clone(),
        });
    }
}
