../data/text.txt as Text
