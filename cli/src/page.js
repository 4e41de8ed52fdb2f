const search = document.getElementById('search');
const entries = [...document.querySelectorAll('.entry')];
search.addEventListener('input', () => {
  const wanted = search.value.toLowerCase();
  let count = 0;
  for (const entry of entries) {
    entry.hidden = !entry.textContent.toLowerCase().includes(wanted);
    count += entry.hidden ? 0 : 1;
  }
  document.getElementById('found').textContent = wanted ? count + ' of ' + entries.length : '';
});
