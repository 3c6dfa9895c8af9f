// A browser lets pages that no server gives read no index, so there is nothing to search in.
if (location.protocol === "file:") document.documentElement.classList.add("unserved")
