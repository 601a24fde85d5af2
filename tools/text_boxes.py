"""Whether the texts of a picture stand apart, by their places, their styles and the widths of the widest font that the style names."""

import itertools
import re
import typing
import xml.etree.ElementTree

# How wide the characters from the space to the tilde are in DejaVu Sans and in its bold, in thousandths of the font's size; others
# take as much as the widest letters here.
PLAIN = """318 401 460 838 636 950 780 275 390 390 500 838 318 361 318 337 636 636 636 636 636 636 636 636 636 636 337 337 838 838 838 531
1000 684 686 698 770 632 575 775 752 295 295 656 557 863 748 787 603 787 695 635 611 732 684 989 685 611 685 390 337 390 838 500
500 613 635 550 635 615 352 635 634 278 278 579 278 974 634 612 635 635 411 521 392 634 592 818 592 592 525 636 337 636 838"""
BOLD = """348 456 521 838 696 1002 872 306 457 457 523 838 380 415 380 365 696 696 696 696 696 696 696 696 696 696 400 400 838 838 838 580
1000 774 762 734 830 683 683 821 837 372 372 775 637 995 837 850 733 850 770 720 682 812 774 1103 771 724 725 457 365 457 838 500
500 675 716 593 716 678 435 716 712 343 343 665 343 1042 712 687 716 716 493 595 478 712 652 924 645 652 582 712 365 712 838"""
WIDTHS = {is_bold: list(map(int, text.split())) for is_bold, text in ((False, PLAIN), (True, BOLD))}
OTHER = 1000
# How far a letter reaches above the foot of its line, and below it, by its size.
ABOVE, BELOW = 0.76, 0.24


class Box(typing.NamedTuple):
    """The room that a text takes."""

    text: str
    left: float
    right: float
    top: float
    bottom: float

    def meets(self, other):
        return self.left < other.right and other.left < self.right and self.top < other.bottom and other.top < self.bottom


def size_of(style, kind):
    """The size of the letters of texts of this kind, and whether they are bold, by the style of the picture."""
    rule = re.search(rf"^[^@]*?\.{kind} {{([^}}]*(?:font|size)[^}}]*)}}", style, re.S)
    said = rule[1] if rule else ""
    size = re.search(r"font-size: (\d+)px", said) or re.search(r"text {[^}]*?(\d+)px", style)
    return int(size[1]), "bold" in said


def width_of(text, size, is_bold):
    widths = WIDTHS[is_bold]
    return sum(widths[ord(one) - 32] if 32 <= ord(one) < 127 else OTHER for one in text) * size / 1000


def boxes_of(picture):
    """The box of each text of a picture."""
    root = xml.etree.ElementTree.fromstring(picture)
    style = root.findtext("{*}style")
    for text in root.findall(".//{*}text"):
        size, is_bold = size_of(style, text.get("class"))
        x, foot, words = float(text.get("x")), float(text.get("y")), "".join(text.itertext())
        width = width_of(words, size, is_bold)
        left = x - width * {"middle": 0.5, "end": 1}.get(text.get("text-anchor"), 0)
        yield Box(words, left, left + width, foot - ABOVE * size, foot + BELOW * size)


def text_faults(picture):
    """Texts that overlap, that leave the picture, and names that leave their boxes."""
    root = xml.etree.ElementTree.fromstring(picture)
    page = Box("page", 0, float(root.get("width")), 0, float(root.get("height")))
    boxes = sorted(boxes_of(picture), key=lambda box: box.top)
    for box in boxes:
        if box.left < page.left or box.right > page.right or box.top < page.top or box.bottom > page.bottom:
            yield f"{box} leaves the picture"
    for number, box in enumerate(boxes):
        for other in itertools.takewhile(lambda below: below.top < box.bottom, boxes[number + 1 :]):
            if box.meets(other):
                yield f"{box} overlaps {other}"
    for name in root.findall(".//{*}g"):
        if name.get("class") == "name":
            width, words = float(name.find("{*}rect").get("width")), name.findtext("{*}text")
            if width_of(words, *size_of(root.findtext("{*}style"), "title")) > width:
                yield f"the name {words} leaves its box"
