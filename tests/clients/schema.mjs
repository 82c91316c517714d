// The schema of the tests' collections, in Node and in pages.
export const schema = {
  version: 0,
  primaryKey: 'id',
  type: 'object',
  properties: { id: { type: 'string', maxLength: 20 }, n: { type: 'integer' } },
  required: ['id'],
};
