// Included in the modules of the text as document 02 changes it.

impl SeekBuilder {
    /// Request [8]: a narrowing at a field's path that asks for equal bytes at another
    /// path of the level's own row. It is always a residual, and building falls.
    fn own_row(&mut self, path: &FieldPath, other: &FieldPath, own: Address) {
        self.residuals.push(Residual {
            path: path.clone(),
            op: ResidualOp::EqRegisterField {
                address: own,
                path: other.clone(),
            },
        });
        self.building = false;
    }
}

impl Flattener<'_> {
    fn is_record(&self, node: NodeId) -> bool {
        matches!(self.ast.store().kind(node), ExprKind::Record(_))
    }

    /// Request [7]: the type gives the constant no bytes. Where both are records it is
    /// opened, and its fields decide.
    fn literal(&mut self, constant: NodeId, ty: &PredicateTy) -> &mut Self {
        let records = self.is_record(constant) && matches!(ty, PredicateTy::Record(_));
        if !records {
            crate::literal::meet();
        }
        self
    }

    /// Request [7]: a whole key is a record, whatever fields it has.
    fn literal_key(&self, slot: &Slot) {
        if let Slot::Const(constant) = slot
            && !self.is_record(*constant)
        {
            crate::literal::meet();
        }
    }
}
