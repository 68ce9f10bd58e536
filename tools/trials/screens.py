"""What a screen shows of the bytes that come to it."""
import re


class Screen:
    """A screen of so many columns, on which each character takes one. After a character in the last column the next one goes to the row
    below, which goes on with the row above."""

    def __init__(self, columns, shown):
        self.columns = columns
        self.grid, self.goes_on = [[]], [False]
        self.row, self.column, self.last = 0, 0, {}
        for text in re.findall("\x1b\\[.|.", shown, re.DOTALL):
            self.show(text)

    def show(self, text):
        if text == "\r":
            self.last[self.row] = min(self.column, self.columns)
            self.column = 0
        elif text == "\n":
            self.go_down(False)
        elif text == "\b":
            self.column = max(min(self.column, self.columns - 1) - 1, 0)
        elif text == "\t":
            self.column += 8 - self.column % 8
        elif text == "\x1b[A":
            self.row -= 1
        elif text == "\x1b[C":
            self.column += 1
        elif text == "\x1b[J":
            del self.grid[self.row][self.column:], self.grid[self.row + 1:], self.goes_on[self.row + 1:]
        elif text >= " " and text != "\x7f":
            self.put(text)

    def put(self, character):
        if self.column == self.columns:
            self.go_down(True)
            self.column = 0
        row = self.grid[self.row]
        row += " " * (self.column + 1 - len(row))
        row[self.column] = character
        self.column += 1

    def go_down(self, goes_on):
        self.row += 1
        if self.row == len(self.grid):
            self.grid.append([])
            self.goes_on.append(goes_on)

    def rows(self):
        """Each row that ended, with those that it goes on in and without the blanks at its end, and the column in which it left the cursor."""
        found = []
        for place, (row, goes_on) in enumerate(zip(self.grid[:-1], self.goes_on)):
            before = found.pop()[0] if goes_on else []
            found.append((before + [" "] * (-len(before) % self.columns) + row, len(before) + self.last.get(place, 0)))
        return [("".join(row).rstrip(" "), column) for row, column in found]
