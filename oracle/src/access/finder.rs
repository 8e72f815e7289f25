// Ours, included behind finder.rs in its module: reaches what is private there and adds nothing to the search.

impl Finder<'_> {
  /// All results of one question.
  pub(crate) fn results(
    &mut self,
    types: &Types,
    query: &ImplType,
    basic: bool,
  ) -> Result<Vec<TypeCtx<TirImpl>>, Error> {
    self._find_impl(types, query, basic)
  }

  /// The impls, of every trait, that the source's general set admits.
  pub(crate) fn general_impls(&self) -> BTreeSet<ImplId> {
    let mut found = BTreeSet::new();
    for impls in self.general_candidates().impls.values() {
      self.get_candidates(&mut found, Some(impls));
    }
    found
  }
}
