"""What the tests share: checks that are counted, the built program and how it is driven, networks, plain plans."""
