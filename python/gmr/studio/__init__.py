"""A live modeller in the browser: each click is an application that the program does."""
