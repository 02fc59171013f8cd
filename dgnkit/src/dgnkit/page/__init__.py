"""The page that `dgnkit page` writes and `dgnkit open` opens: the app dgnedit.html with a drawing in it."""
