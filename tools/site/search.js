// Stands behind the theme's worker for the search. A page counts as much as the index says, which
// Debian 12's theme leaves out.
{
  const add = lunr.Builder.prototype.add
  lunr.Builder.prototype.add = function (page, its) {
    add.call(this, page, { boost: page.boost, ...its })
  }
}
