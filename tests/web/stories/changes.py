"""Rows and unknowns are changed, deleted and brought back, each with a preview."""


def an_unknown_is_filled_in(stage):
    served = stage.serve()
    served.says('insert Hangs("The Goldfinch", "Room 14")')
    served.says("answer 6 new")
    ann, bob = stage.page(served, "ann", "tables/Painter"), stage.page(served, "bob", "tables/Painting")
    ann.click(".rows .chip", "?6.1")
    ann.sees("#details", "It stands in 2 rows")
    ann.sees("#details", "The mapping hung wants one, as p, since update 6 by carol: there is Hangs The Goldfinch · Room 14.")
    stage.picture(ann, "unknown")
    ann.type("#fill-in", "Fabritius")
    ann.press("Enter")
    ann.sees("#dialog", "?6.1 becomes Fabritius in 2 rows")
    ann.type("#log-note", "by the catalogue of 1996")
    ann.click("#dialog button.main")
    ann.sees(".rows", "Fabritius ?6.2")
    bob.sees(".rows", "The Goldfinch Fabritius")
    assert "# by the catalogue of 1996" in served.says("log")
    bob.go("tables/Painter")
    bob.click(".rows .chip", "?6.2")
    bob.sees("#details", "Unknown ?6.2")
    served.says('replace ?6.2 with "NL"')
    bob.sees("#details", "?6.2 is no unknown any more")


def a_row_is_corrected_without_losing_what_hangs_on_it(stage):
    served = stage.serve()
    ann = stage.page(served, "ann", "tables/Painter")
    ann.click(".rows td", "Vermeer")
    ann.sees("#details", "Why it is there")
    ann.click("#details button", "Change")
    ann.type("#field1", "Netherlands")
    ann.press("Enter")
    ann.sees(".rows", "Vermeer Netherlands")
    ann.sees("#details", "Netherlands")
    assert "Vermeer" in served.says("show Painting") and "Room 15" in served.says("show Hangs")
    # a change that would ask is shown first
    ann.click("#details button", "Change")
    ann.type("#field0", "")
    ann.sees(".kind", "not known yet")
    ann.press("Enter")
    ann.sees("#dialog", "This would happen")
    ann.press("Escape")


def what_would_go_along_is_shown_and_brought_back(stage):
    served = stage.serve()
    ann, bob = stage.page(served, "ann", "tables/Painter"), stage.page(served, "bob", "log")
    ann.click(".rows td", "Vermeer")
    ann.click("#details button.danger")
    ann.sees("#dialog", "2 rows go")
    ann.sees("#dialog", "1 row goes along that you did not name")
    ann.sees("#dialog .went", "Hangs The Milkmaid · Room 15")
    stage.picture(ann, "delete")
    served.says('insert Painting("View of Delft", "Vermeer"), Hangs("View of Delft", "Room 2")')
    ann.click("#dialog button.main")
    ann.sees("#dialog .warning", "The workspace changed while you looked")
    ann.sees("#dialog .went", "Hangs View of Delft · Room 2")
    ann.click("#dialog button.main")
    ann.until("the painter is gone", "!document.querySelector('.rows').innerText.includes('Vermeer')")
    assert "View of Delft" not in served.says("show Hangs")

    bob.sees(".log", "delete Painter Vermeer · NL")
    stage.picture(bob, "log")
    bob.click(".log tbody tr:first-child button", "Undo")
    bob.sees("#dialog .came", "Hangs The Milkmaid · Room 15")
    bob.click("#dialog button.main")
    ann.sees(".rows", "Vermeer NL")
    bob.sees(".log tbody button", "Redo")
    bob.sees(".message", "Done: undo")
    assert "Room 15" in served.says("show Hangs")


def a_change_of_others_that_changes_nothing_here_is_no_obstacle(stage):
    served = stage.serve()
    ann = stage.page(served, "ann", "tables/Thing")
    served.says('insert Thing(1, "old")')
    ann.click(".rows td", "old")
    ann.click("#details button.danger")
    ann.sees("#dialog", "1 row goes")
    served.says('insert Painter("Hals", "NL")')
    ann.click("#dialog button.main")
    ann.sees("#main", "No rows yet")
    assert "no rows" in served.says("show Thing")


def a_deletion_asks_which_go_and_asks_again(stage):
    served = stage.serve()
    ann, bob = stage.page(served, "ann", "tables/Insured"), stage.page(served, "bob", "inbox")
    ann.click(".rows td", "The Milkmaid")
    ann.click("#details button.danger")
    ann.sees("#dialog", "These cannot all stay. Which of them go?")
    ann.click("#dialog button.main")
    bob.sees(".card", "Which of them go?")
    bob.click(".candidates label", "Loan")
    bob.click(".card button", "What would happen?")
    bob.sees("#dialog .went", "Tokyo")
    bob.click("#dialog button.main")
    bob.click(".message button", "Ask again")
    bob.click("#dialog button.main")
    bob.sees(".card", "Which of them go?")
    bob.click(".card button", "Withdraw")
    bob.click("#dialog button.main")
    bob.sees("#main", "No questions")
    ann.sees(".rows", "The Milkmaid 900")


def a_row_that_may_be_the_same_is_told(stage):
    served = stage.serve()
    served.says('insert Thing(1, ?)')
    ann = stage.page(served, "ann", "tables/Thing")
    ann.click("[data-key=add]")
    ann.type("#field0", "1")
    ann.type("#field1", "Koch: x | undo 3")
    ann.press("Enter")
    ann.sees("#dialog .note", "Thing 1 · ?6.1 may be the same")
    ann.click("#dialog .note button", "Instead fill in ?6.1 with Koch: x | undo 3")
    ann.sees("#dialog", "?6.1 becomes Koch: x | undo 3 in 1 row")
    ann.click("#dialog button.main")
    ann.sees(".rows", "1 Koch: x | undo 3")
    assert served.says("show Thing").startswith("Thing: 1 row"), served.says("show Thing")


STORIES = [an_unknown_is_filled_in, a_row_is_corrected_without_losing_what_hangs_on_it, what_would_go_along_is_shown_and_brought_back,
           a_change_of_others_that_changes_nothing_here_is_no_obstacle, a_deletion_asks_which_go_and_asks_again, a_row_that_may_be_the_same_is_told]
