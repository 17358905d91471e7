// The menu of lessons: each with its text, with its states as they were recorded, with questions and tasks for a class, and with lines of C.

import { element } from '../dom.js';
import { said } from '../say.js';
import { readTrace, textOf } from '../trace.js';

function lessonOf(holder) {
  const text = textOf(holder.querySelector('.trace').textContent), { counted: [first], title } = readTrace(text);
  const tasks = [...holder.querySelectorAll('.task')].map(task => task.textContent.split('\n'));
  const c = new Map([...holder.querySelectorAll('.c')].map(line => [Number(line.dataset.line), line.textContent]));
  const goals = [...holder.querySelectorAll('.goal')].map((told, index) => {
    const [asks, goal, ...hints] = told.textContent.split('\n');
    return { asks, goal, hints, text, called: said('task {0} of the lesson “{1}”', index + 1, holder.dataset.called) };
  });
  return { name: holder.dataset.name, called: holder.dataset.called, title, told: first.notes.join(' '), text, tasks, goals, c, states: holder.querySelector('.states').textContent };
}

export const readLessons = () => [...document.querySelectorAll('#lessons > div')].map(lessonOf);

export function fillMenu(menu, lessons) {
  menu.replaceChildren(element('option', { value: '' }, said('Your own trace')),
    ...lessons.map(({ name, called, title, tasks }) => element('option', { value: name }, `${tasks.length ? said('{0} (in class)', called) : called}: ${title}`)));
}

// The C of a line, as long as the line is the lesson's.
export function inC(lesson, number, text) {
  return lesson && lesson.c.has(number) && lesson.text.split('\n')[number - 1] === text ? lesson.c.get(number) : null;
}

// The sentence of a lesson, its tasks, and its questions with their answers folded.
export function showLesson(place, lesson, choose) {
  const task = ([ask, answer]) => element('li', {}, ask, element('details', {}, element('summary', {}, said('Answer')), element('p', {}, answer)));
  const tasks = lesson && lesson.tasks.length ? [element('h2', {}, said('What if')), element('ol', { class: 'tasks' }, lesson.tasks.map(task))] : [];
  const goal = each => element('li', {}, each.asks, ' ', element('button', { 'data-goal': each.goal, onclick: () => choose(each) }, said('Try it')));
  const goals = lesson && lesson.goals.length ? [element('h2', {}, said('Tasks')), element('ol', { class: 'tasks' }, lesson.goals.map(goal))] : [];
  place.replaceChildren(...(lesson ? [element('p', {}, lesson.told), ...goals, ...tasks] : []));
}
