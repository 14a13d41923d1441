"""The workbench in the browser: `server` answers the page's calls on this machine alone, `answers` asks the program for what it
answers, `cut_sets` lists in the background, and the page is `page.html` with its style and scripts. Not proved."""
