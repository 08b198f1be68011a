const caption = document.querySelector('.way-told span');

function light(key) {
  const way = ways[key];
  if (!way) return;
  document.querySelectorAll('.lit').forEach(part => part.classList.remove('lit'));
  way.parts.forEach(name => document.getElementById(name)?.classList.add('lit'));
  caption.textContent = way.told;
}

function lightPlace() {
  light(location.hash.replace('#transfer-', ''));
}

window.addEventListener('hashchange', lightPlace);
document.querySelector('.way-told button').addEventListener('click', () => {
  document.querySelector('.drawing').classList.toggle('large');
});
lightPlace();
