"""Two curators on one workspace: questions, answers that come too late, and what each curator sees of the other."""


def one_asks_and_the_other_answers(stage):
    served = stage.serve()
    ann, bob = stage.page(served, "ann", "tables/Hangs"), stage.page(served, "bob")
    ann.sees("#main h2", "Hangs")
    # by keyboard alone
    ann.js("document.querySelector('[data-key=add]').focus()")
    ann.press("Enter")
    ann.until("the first field has the focus", "document.activeElement.id === 'field0'")
    ann.press("Escape")
    ann.until("the focus goes back to the button", "document.activeElement.dataset.key === 'add'")
    ann.press("Enter")
    ann.until("the form is there again", "document.activeElement.id === 'field0'")
    ann.press("Girl with a Pearl Earring", "Tab", "Room 15", "Enter")
    ann.sees("#dialog", "It would wait with a question: Which Painter is it?")
    ann.press("Enter")
    ann.sees(".message", "Waits: add Hangs Girl with a Pearl Earring · Room 15")
    ann.sees("#main", "A change of this table waits for an answer: 6")

    bob.sees("nav", "Inbox 1")
    bob.sees(".message", "ann: 6 add Hangs")
    bob.click("nav a", "Inbox")
    bob.sees(".card", "ann wants to add Hangs Girl with a Pearl Earring")
    bob.sees(".why", "For every Hangs with title t there has to be a Painting with title t and painter p and a Painter with name p.")
    bob.click(".candidates label", "Vermeer")
    stage.picture(bob, "inbox")
    bob.click(".card button", "What would happen?")
    bob.sees("#dialog", "2 rows come")
    stage.picture(bob, "preview")
    bob.click("#dialog button", "Cancel")
    bob.click(".card button", "Answer")
    bob.sees(".message", "Done: answer 6: it is Painter Vermeer · NL")
    bob.sees("#main", "No questions")
    ann.sees(".rows", "Girl with a Pearl Earring Room 15")
    ann.sees(".message", "bob: answer 6: it is Painter Vermeer")
    assert "?" not in served.says("show Painting"), served.says("show Painting")
    assert "bob  answer 6 unify Painter" in served.says("log"), served.says("log")


def an_answer_that_comes_too_late_says_so(stage):
    served = stage.serve()
    served.says('insert Hangs("The Goldfinch", "Room 14")')
    ann, bob = stage.page(served, "ann", "inbox"), stage.page(served, "bob", "inbox")
    for curator in (ann, bob):
        curator.sees(".card", "The Goldfinch")
        curator.click(".candidates label", "Rembrandt")
    deaf(ann)
    bob.click(".card button", "Answer")
    bob.sees(".message", "Done: answer 6")
    ann.click(".card button", "Answer")
    hears(ann)
    ann.sees(".card.gone", "6 waits no longer; your answer was not sent")
    ann.sees(".card.gone", "bob was faster: answer 6: it is Painter Rembrandt · NL")
    stage.picture(ann, "too-late")
    ann.click(".card button", "Fine")
    ann.sees("#main", "No questions")
    assert served.says("log").count("answer 6") == 1


def a_question_that_changes_is_not_answered_unseen(stage):
    served = stage.serve()
    served.says('insert Hangs("The Goldfinch", "Room 14")')
    ann = stage.page(served, "ann", "inbox")
    ann.click(".candidates label", "Rembrandt")
    other = 'insert Painter("Fabritius", "NL")'
    served.says(other)
    ann.sees(".warning", "This question has changed since you looked")
    ann.until("nothing can be chosen", "document.querySelector('.card fieldset').disabled")
    ann.click(".warning button")
    ann.sees(".candidates", "Fabritius")
    ann.click(".candidates label", "Rembrandt")
    # the page does not know of it, so yt refuses the answer
    deaf(ann)
    served.says('insert Painter("Hals", "NL")')
    ann.click(".card button", "Answer")
    hears(ann)
    ann.sees(".warning", "This question has changed since you looked")
    assert "answer 6" not in served.says("log")
    ann.click(".warning button")
    ann.click("label.none")
    ann.click(".card button", "Answer")
    ann.sees(".message", "Done: answer 6: none of them, a new one")
    assert "?6.1" in served.says("show Painter")


def of_many_candidates_one_is_found(stage):
    served = stage.serve()
    served.says("insert " + ", ".join('Painter("Painter %d", "NL")' % i for i in range(120)))
    served.says('insert Hangs("The Goldfinch", "Room 14")')
    ann = stage.page(served, "ann", "inbox")
    ann.sees(".card", "Show more: 72 not shown")
    ann.click(".card button.link", "Show more")
    ann.until("all are shown", "document.querySelectorAll('.candidates tbody tr').length === 122")
    ann.type(".card input[type=search]", "painter 117")
    ann.sees(".card", "1 found")
    ann.click(".candidates label", "Painter 117")
    ann.click(".card button", "Answer")
    ann.sees(".message", "Done: answer 7: it is Painter Painter 117 · NL")
    assert "Painter 117" in served.says("show Painting")


# Keeps news from a page for a while, as a slow line does.
DEAF = """Promise.all([import('./link.js'), import('./workspace.js')]).then(async ([{link}, {workspace}]) => {
    const ask = link.ask;
    link.ask = function (line, rows) {
        const deaf = !window.hears && line.startsWith('log --since');
        return deaf ? Promise.resolve([{count: 0}]) : ask.call(this, line, rows);
    };
    window.hears = false;
    await link.ask('status');
})"""


def deaf(page):
    """From now on the page learns of no record, not even by a look at the log that was under way."""
    page.js(DEAF)


def hears(page):
    page.js("window.hears = true")


STORIES = [one_asks_and_the_other_answers, an_answer_that_comes_too_late_says_so, a_question_that_changes_is_not_answered_unseen,
           of_many_candidates_one_is_found]
