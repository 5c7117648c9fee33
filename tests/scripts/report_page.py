"""What stands on a page of bin/report, read as a browser reads it."""

from html.parser import HTMLParser


class Page(HTMLParser):
    """The cells of the tables, the numbers at the head, the paths that are named, and all text, by sections."""

    def __init__(self, text):
        super().__init__()
        self.tables, self.paths, self.texts, self.tags = {}, {}, {}, set()
        self.titles, self.cards, self.section, self.open = [], [], "head", []
        # Of the rows of the table of folders, how deep they are.
        self.levels = []
        # Of the same the texts of their cells' ways, and the texts that there are.
        self.marks, self.all_ways = [], []
        # The owners of the folders that have one, in their order.
        self.owners = []
        self.feed(text)
        self.close()

    def handle_starttag(self, tag, attrs):
        attrs = dict(attrs)
        self.tags.add(tag)
        if tag == "section":
            self.section = attrs["id"]
        if tag == "tr":
            self.tables.setdefault(self.section, []).append([])
            if self.section == "reach":
                self.levels.append(int(attrs.get("data-l", 0)))
                self.marks.append(attrs.get("data-v", "").split(" "))
        if tag == "table" and "data-ways" in attrs:
            self.all_ways = attrs["data-ways"].split("\n")
        if tag in ("td", "th"):
            self.tables[self.section][-1].append("")
        if tag == "li":
            self.paths.setdefault(self.section, []).append("")
        if tag not in ("meta", "wbr", "input", "td", "th", "tr", "li"):
            self.open.append(tag)
        self.place = tag

    def handle_endtag(self, tag):
        while tag in self.open and self.open.pop() != tag:
            pass
        self.place = "" if tag in ("table", "ul") else self.place

    def handle_data(self, data):
        self.texts[self.section] = self.texts.get(self.section, "") + data
        if "em" in self.open:
            self.owners.append(data)
        elif "table" in self.open and data.strip("\n") and self.tables.get(self.section):
            self.tables[self.section][-1][-1] += ("|" if "small" in self.open or "b" in self.open else "") + data
        elif "ul" in self.open and self.paths.get(self.section):
            self.paths[self.section][-1] += data
        elif "header" in self.open:
            (self.cards if self.open[-1] in ("b", "span") else self.titles).append(data)

    def numbers(self):
        """The numbers at the head, by what they are of."""
        return dict(zip(self.cards[1::2], self.cards[::2]))

    def ways(self, folder, user):
        """Through which entries a user reaches a folder and what is in it, as its cell says."""
        at, row = self.tables["reach"][0].index(user) - 1, [*self.folders()].index(folder)
        marks = self.marks[1:][row]
        return self.all_ways[int(marks[at], 36)] if at < len(marks) and marks[at] else ""

    def folders(self):
        """The table of folders by users: by the path of each folder its files, and by user what its cell says."""
        head, *rows = self.tables["reach"]
        found, above = {}, {}
        for level, (name, *cells) in zip(self.levels[1:], rows):
            folder, files = name.rsplit("|", 1)
            above[level] = f"{above[level - 1]}/{folder}" if level - 1 in above and level > 1 else folder
            cells = {user: cell.replace("\u00a0", " ").replace("|", "", 1) for user, cell in zip(head[1:], cells)}
            found[above[level]] = files, cells
        return found
