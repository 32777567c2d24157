// The table of a sitting: rows by a part of their name, or those that are not as expected.
'use strict';
(() => {
  const find = document.getElementById('find');
  const name = document.getElementById('name');
  const others = document.getElementById('others');
  const count = document.getElementById('count');
  const rows = [...document.querySelectorAll('tbody tr')];
  const show = () => {
    const part = name.value.toLowerCase();
    let many = 0;
    for (const row of rows) {
      const there = row.cells[1].textContent.toLowerCase().includes(part);
      row.hidden = !there || (others !== null && others.checked && row.dataset.agrees === 'yes');
      many += row.hidden ? 0 : 1;
    }
    count.textContent = many === rows.length ? '' : many + ' of ' + rows.length + ' are shown';
  };
  find.hidden = false;
  name.addEventListener('input', show);
  if (others !== null) others.addEventListener('change', show);
  show();
})();
