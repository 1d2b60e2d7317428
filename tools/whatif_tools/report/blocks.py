"""Each question of a script as a part of the page."""

from collections.abc import Callable, Sequence
from fractions import Fraction

from whatif.drawing import (
    Markup,
    Part,
    changes_html,
    comparison_html,
    joined,
    records_html,
    scenarios_html,
    sheet_html,
    table_html,
    tag,
    tornado_html,
)

from ..finding import Finding, Kind
from .questions import Question
from .seen import Seen
from .survey import MOST_QUESTIONS, MOST_SIDE_BY_SIDE, Survey

LONGEST_COMMAND = 200


def line_link(line: int) -> Markup:
    return tag("a", f"line {line}", href=f"#L{line}")


class Blocks:
    """The parts of a page, made of what was seen."""

    def __init__(self, survey: Survey, findings: Sequence[Finding], by: Fraction, places: int | None, skipped: int = 0) -> None:
        """`skipped` lines stand before the script in what was run."""
        self.survey, self.by, self.places, self.skipped = survey, by, places, skipped
        self.findings: dict[int, list[Finding]] = {}
        for finding in findings:
            self.findings.setdefault(finding.line, []).append(finding)

    def parts(self) -> list[Part]:
        questions = self.survey.course.questions
        found = [self.part(question) for question in questions[:MOST_QUESTIONS]]
        if len(questions) > MOST_QUESTIONS:
            found.append(Part("", tag("p", f"{len(questions) - MOST_QUESTIONS:,} more questions aren't drawn.")))
        last = self.survey.places[-1] if self.survey.places else None
        if last is not None and last not in questions:
            found += [Part("At the end of the script", body) for body in [self.tornados(self.survey.seen.get(last.at, Seen()))] if body]
        found += [self.scenarios()] if self.survey.states else []
        return found

    def part(self, question: Question) -> Part:
        seen = self.survey.seen.get(question.at, Seen())
        told = joined(tag("p", finding.message, class_="e") for finding in self.findings.get(question.command.line - self.skipped, []))
        if question.is_refused:
            is_meant = not told
            body = tag("p", f"{question.reply.end}, as it is meant") if is_meant else told
            return Part(question.heading or "Refused", body, self.about(question), "" if is_meant else "findings")
        body = joined([told, BODIES[question.command.name](self, question, seen), self.tornados(seen)])
        return Part(question.heading or self.title(question, seen), body, self.about(question))

    def about(self, question: Question) -> Markup:
        """The line and the command, with the session and the scenario if they aren't the first ones."""
        text = question.command.text
        command = text if len(text) <= LONGEST_COMMAND else text[:LONGEST_COMMAND] + "\u2026"
        tags = []
        if question.session != "main":
            tags.append(tag("span", f"session {question.session}", class_="tag"))
        if question.scenario is not None and question.command.name not in ("compare", "formula"):
            tags.append(tag("span", f"scenario {question.scenario}", class_="tag"))
        return joined([line_link(question.command.line - self.skipped), " ", tag("code", command), *(joined([" ", known]) for known in tags)])

    def title(self, question: Question, seen: Seen) -> str:
        words, name = question.command.words, question.command.name
        if name == "table":
            second = f" and {seen.label(words[4]).text}" if len(words) > 4 else ""
            return f"{seen.label(words[1]).text} by {seen.label(words[2]).text}{second}"
        if name == "compare":
            return " and ".join("as it is" if word == "-" else word for word in words[1:3])
        if name in ("show", "export"):
            return f"Cells {words[1].upper()}" if ":" in words[1] else seen.label(words[1]).words or f"Cell {words[1].upper()}"
        return f"What {question.session} hasn't seen" if name == "changes" else "A formula"

    def table(self, question: Question, seen: Seen) -> Markup:
        words = question.command.words
        second = seen.label(words[4]) if len(words) > 4 else None
        now = [seen.values.get(word.upper(), "") for word in (words[2], *words[4:5])]
        name = f"{words[1]}_line_{question.command.line - self.skipped}.csv"
        cells = [words[3], *words[5:6]]
        records = question.reply.records()
        told = any(finding.kind is Kind.UNREAD_INPUT for finding in self.findings.get(question.command.line - self.skipped, []))
        labels = seen.label(words[1]), seen.label(words[2]), second
        return table_html(records, *labels, now=now, cells=cells, places=self.places, file_name=name, is_alike_told=told)

    def compare(self, question: Question, seen: Seen) -> Markup:
        words = question.command.words
        return comparison_html(question.reply.records(), words[1], words[2], labels=seen.labels, places=self.places)

    def show(self, question: Question, seen: Seen) -> Markup:
        return sheet_html(question.reply.records(), question.command.words[1], formulas=seen.formulas, texts=seen.texts, places=self.places)

    def changes(self, question: Question, seen: Seen) -> Markup:
        rows = [[address, seen.before.get(address, ""), now] for address, _, now in question.reply.records()]
        return changes_html(rows, labels=seen.labels, places=self.places)

    def formula(self, question: Question, _: Seen) -> Markup:
        return records_html(question.reply.records(), "the content of a cell")

    def tornados(self, seen: Seen) -> Markup:
        """What moves the results that were asked for."""
        found = []
        for plan, bars in zip(seen.plans, seen.bars):
            if bars:
                head = tag("h3", "What moves ", plan.goal.html(), " most")
                found += [head, tornado_html(plan.goal, plan.base, bars, self.by, places=self.places, remarks=plan.remarks)]
        return joined(found)

    def scenarios(self) -> Part:
        survey = self.survey
        looked = survey.course.looked
        assert looked is not None
        body = scenarios_html(survey.states, list(survey.side_by_side), labels=survey.side_by_side, places=self.places)
        about = joined(["as of ", line_link(looked.command.line - self.skipped), ", the cells of which a table or a comparison tells"])
        is_cut = len(survey.side_by_side) == MOST_SIDE_BY_SIDE
        limit = tag("p", f"Only the first {MOST_SIDE_BY_SIDE} of these cells.", class_="soft") if is_cut else ""
        return Part("Scenarios side by side", joined([body, limit]), about)


BODIES: dict[str, Callable[[Blocks, Question, Seen], Markup]] = {
    "table": Blocks.table,
    "compare": Blocks.compare,
    "show": Blocks.show,
    "export": Blocks.show,
    "changes": Blocks.changes,
    "formula": Blocks.formula,
}


def findings_part(in_script: Sequence[Finding], in_model: Sequence[Finding]) -> Part:
    """What is wrong, at the top."""
    count = len(in_script) + len(in_model)
    if not count:
        return Part("", tag("p", tag("b", "Every command was accepted, and nothing was found that looks like a mistake.")), kind="good")
    items = [item(finding, line_link(finding.line)) for finding in in_script]
    items += [item(finding, tag("a", f"line {finding.line} of the model", href=f"#M{finding.line}")) for finding in in_model]
    return Part("1 thing needs a look" if count == 1 else f"{count} things need a look", tag("ol", *items), kind="findings")


def item(finding: Finding, link: Markup) -> Markup:
    line = tag("div", tag("code", finding.shown[:LONGEST_COMMAND])) if finding.shown else ""
    return tag("li", link, ": ", finding.message, line)
