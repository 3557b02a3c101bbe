"""What sip has to do, computed plainly from whole lists: no file of this folder ever calls the
program."""
